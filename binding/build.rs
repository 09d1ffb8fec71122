//! Links the one static library that `tools/staticlib` makes. `BEFROLAN_LIB` names another folder that holds it.

use std::env;
use std::path::PathBuf;

fn main() {
    println!("cargo:rerun-if-env-changed=BEFROLAN_LIB");
    let here = PathBuf::from(env::var("CARGO_MANIFEST_DIR").expect("cargo sets it"));
    let folder = match env::var("BEFROLAN_LIB") {
        Ok(given) => PathBuf::from(given),
        Err(_) => here.join("../target/staticlib"),
    };
    let library = folder.join("libbefrolan.a");
    if !library.exists() {
        panic!("{} is missing: run tools/staticlib first", library.display());
    }
    println!("cargo:rerun-if-changed={}", library.display());
    println!("cargo:rustc-link-search=native={}", folder.display());
    println!("cargo:rustc-link-lib=static=befrolan");
}
