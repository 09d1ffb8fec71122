//! Lays the given Rust files and the shims together in OUT_DIR. A given file is copied byte for byte, and only if its
//! SHA-256 is the one in docs/DIFFERENCES.md; a shim never stands where a given file stands.
use std::path::{Path, PathBuf};
use std::{env, fs};

/// The ten files under docs/src/src/protocol with the sums of docs/DIFFERENCES.md.
const GIVEN: [(&str, &str); 10] = [
    ("api_version.rs", "08f4c7830b2cf6fb6bda788a83de0698648d6d9a78783937e42f5c4414f576b6"),
    ("frame.rs", "e6c9830bc5ec43dcdb7d44f2eac8db463bc66d4967d558707226d4ad8b97496a"),
    ("messages/api_versions.rs", "135f18a95f4b89740ebcb1e635930480c55cca7e618df4fd7402f83ed33c50ab"),
    ("messages/fetch.rs", "2f13ce9b2c211df689894f437d44c9bd6713ba59c153d13c492ae08a363db771"),
    ("messages/header.rs", "a034e32f656f43e980d766d59975c171e4e6d7ab1c89f0066278fb1f510715c3"),
    ("messages/metadata.rs", "85dca82760ad6159fd3d05f77218905cab4ba17b5a9c848646c54c980abc941b"),
    ("messages/mod.rs", "ff52fd35e18a84c7601d1dd6226316d3b732ad9ec1bc2e7218c9521bb43e1214"),
    ("messages/produce.rs", "a34695988e30c6b5fd2087a62c79f415591a80b0e66697edc51853930f945eaf"),
    ("mod.rs", "8e39c0fc6000e0150d208a9c5248731b4d44dd9a08023bb821d46b63e4318fb2"),
    ("primitives.rs", "9c0dca9ffc0defa55f2a0f99cf06676330c39cd95a658ddd1d70fb3829a77eba"),
];

fn main() {
    let here = PathBuf::from(env::var("CARGO_MANIFEST_DIR").unwrap());
    let out = PathBuf::from(env::var("OUT_DIR").unwrap());
    let given = here.join("../docs/src/src/protocol");
    let shims = here.join("shims/protocol");
    let tree = out.join("protocol");
    if tree.exists() {
        fs::remove_dir_all(&tree).unwrap();
    }
    for (name, sum) in GIVEN {
        let from = given.join(name);
        let text = fs::read(&from).unwrap_or_else(|e| panic!("{}: {e}", from.display()));
        assert_eq!(sha256(&text), sum, "{} is not the file that was given", from.display());
        put(&tree.join(name), &text);
        println!("cargo:rerun-if-changed={}", from.display());
    }
    lay(&shims, &tree);
    println!("cargo:rerun-if-changed={}", shims.display());
    println!("cargo:rerun-if-changed=build.rs");
    let root = format!("#[path = {:?}]\n#[allow(dead_code, unused_imports)]\npub mod protocol;\n", tree.join("mod.rs"));
    put(&out.join("root.rs"), root.as_bytes());
}

/// Copies a folder of shims, and stops where a file is already there.
fn lay(from: &Path, to: &Path) {
    for entry in fs::read_dir(from).unwrap() {
        let path = entry.unwrap().path();
        let goal = to.join(path.file_name().unwrap());
        if path.is_dir() {
            lay(&path, &goal);
        } else {
            assert!(!goal.exists(), "the shim {} stands where a given file stands", path.display());
            put(&goal, &fs::read(&path).unwrap());
        }
    }
}

fn put(path: &Path, text: &[u8]) {
    fs::create_dir_all(path.parent().unwrap()).unwrap();
    fs::write(path, text).unwrap();
    assert_eq!(fs::read(path).unwrap(), text, "{} was not copied as it is", path.display());
}

/// FIPS 180-4, in hexadecimal. The constants are the first 32 bits behind the point of square and cube roots of primes.
fn sha256(text: &[u8]) -> String {
    let primes: Vec<u64> = (2u64..312).filter(|n| (2..*n).all(|d| n % d != 0)).collect();
    let mut state: Vec<u32> = primes[..8].iter().map(|p| root_bits(*p, 2)).collect();
    let keys: Vec<u32> = primes[..64].iter().map(|p| root_bits(*p, 3)).collect();
    let mut padded = text.to_vec();
    padded.push(0x80);
    while padded.len() % 64 != 56 {
        padded.push(0);
    }
    padded.extend((text.len() as u64 * 8).to_be_bytes());
    for block in padded.chunks(64) {
        let mut w: Vec<u32> = block.chunks(4).map(|b| u32::from_be_bytes(b.try_into().unwrap())).collect();
        for i in 16..64 {
            let a = w[i - 15].rotate_right(7) ^ w[i - 15].rotate_right(18) ^ (w[i - 15] >> 3);
            let b = w[i - 2].rotate_right(17) ^ w[i - 2].rotate_right(19) ^ (w[i - 2] >> 10);
            w.push(w[i - 16].wrapping_add(a).wrapping_add(w[i - 7]).wrapping_add(b));
        }
        let mut s = state.clone();
        for i in 0..64 {
            let a = s[4].rotate_right(6) ^ s[4].rotate_right(11) ^ s[4].rotate_right(25);
            let choice = (s[4] & s[5]) ^ (!s[4] & s[6]);
            let t = [s[7], a, choice, keys[i], w[i]].iter().fold(0u32, |x, y| x.wrapping_add(*y));
            let b = s[0].rotate_right(2) ^ s[0].rotate_right(13) ^ s[0].rotate_right(22);
            let majority = (s[0] & s[1]) ^ (s[0] & s[2]) ^ (s[1] & s[2]);
            s.rotate_right(1);
            s[4] = s[4].wrapping_add(t);
            s[0] = t.wrapping_add(b).wrapping_add(majority);
        }
        for (x, y) in state.iter_mut().zip(s) {
            *x = x.wrapping_add(y);
        }
    }
    state.iter().map(|x| format!("{x:08x}")).collect()
}

/// The first 32 bits behind the point of the root of n, by whole numbers: the largest r with r^degree <= n * 2^(32 * degree).
fn root_bits(n: u64, degree: u32) -> u32 {
    let goal = (n as u128) << (32 * degree);
    let (mut low, mut high) = (0u128, 1u128 << 38);
    while high - low > 1 {
        let middle = (low + high) / 2;
        if middle.pow(degree) <= goal {
            low = middle;
        } else {
            high = middle;
        }
    }
    low as u32
}
