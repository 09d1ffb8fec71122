//! The worked examples of docs/RULES.md, and the inputs of docs/DIFFERENCES.md that are calls here.
use oracle::calls::{FETCH_READ, FETCH_REQUEST_WRITE, METADATA_READ, METADATA_REQUEST_WRITE};
use oracle::calls::{PRIMITIVES, RESPONSE_READS, RESPONSE_WRITE};
use oracle::case::Case;
use oracle::judge::{judge, Voice};
use oracle::make::examples;
use oracle::model::primitives::Primitive;
use oracle::model::write::{Own, Value};
use oracle::rust::{self, Heard};
use oracle::token::Token;

fn answered(case: &Case) -> String {
    let mut line = vec![];
    judge(case).answer.put(&mut line);
    String::from_utf8(line).unwrap()
}

fn asked(case: &Case) -> String {
    let mut line = vec![];
    case.put(&mut line);
    String::from_utf8(line).unwrap()
}

#[test]
fn the_model_gives_the_answers_of_the_page() {
    for (case, expected) in examples::all() {
        assert_eq!(answered(&case), expected, "{}", asked(&case));
    }
}

#[test]
fn the_rust_agrees_on_the_examples() {
    for (case, _) in examples::all() {
        assert_eq!(judge(&case).complaint, None, "{}", asked(&case));
    }
    let heard = examples::all().iter().filter(|(case, _)| judge(case).voice == Voice::Rust).count();
    assert!(heard >= 40, "only {heard} examples were put to the Rust");
}

/// These run over a stand-in, so they are no comparison; what the given text does itself is to refuse what does not fit.
#[test]
fn e5_and_e6_over_the_stand_in() {
    let number = |n: i32, used| Heard::Gave((vec![Token::number(n)], used));
    assert_eq!(rust::primitives::read(Primitive::Varint, &[1]), number(-1, 1));
    assert_eq!(rust::primitives::read(Primitive::Varint, &[255, 255, 255, 255, 15]), number(i32::MIN, 5));
    assert_eq!(rust::primitives::read(Primitive::Varint, &[128, 128, 128, 128, 16]), Heard::Refused);
}

const E9: [u8; 12] = [0, 0, 0, 0, 0, 1, 0, 18, 0, 0, 0, 3];

fn response(way: usize, version: i16, message: &[u8]) -> Case {
    Case::ReadBody { call: &RESPONSE_READS[way], version, rooms: vec![4, 0], message: message.to_vec() }
}

fn primitive(name: &str, message: &[u8]) -> Case {
    let call = PRIMITIVES.iter().find(|call| call.read == name).unwrap();
    Case::Read { call, message: message.to_vec() }
}

fn write(name: &str, room: usize, value: Value) -> Case {
    let call = PRIMITIVES.iter().find(|call| call.write == name).unwrap();
    Case::Write { call, room, value }
}

fn metadata(version: i16, message: &[u8]) -> Case {
    Case::ReadBody { call: &METADATA_READ, version, rooms: vec![0; 5], message: message.to_vec() }
}

/// A Metadata request for topics of that name.
fn metadata_request(version: i16, room: usize, name: &[u8], topics: usize, creation: Own) -> Case {
    let own = vec![Own::Number(topics as i64), creation];
    let tables = vec![[0, name.len() as i64].repeat(topics)];
    Case::WriteBody { call: &METADATA_REQUEST_WRITE, room, version, lent: name.to_vec(), own, tables }
}

/// The answer begins so, the input falls under this entry, and the Rust does what the entry says.
fn differs(case: &Case, entry: impl Into<Option<u8>>, begins: &str) {
    let verdict = judge(case);
    assert_eq!(verdict.entry, entry.into(), "{}", asked(case));
    assert_eq!(verdict.complaint, None, "{}", asked(case));
    assert!(answered(case).starts_with(begins), "{}", answered(case));
}

#[test]
fn differences_in_versions() {
    for version in [-1, -32_768] {
        differs(&response(0, version, &E9), 1, "no 1 0 0 ");
        assert!(matches!(rust::api_versions::read_response(version, &E9), Heard::Gave((_, 12))));
    }
    differs(&response(0, 4, &E9), 2, "no 1 0 0 ");
    assert!(matches!(rust::api_versions::read_response(4, &E9), Heard::Panicked(_)));
}

#[test]
fn differences_in_compact_bytes() {
    let tenth = [[0x80; 9].as_slice(), &[2]].concat();
    for message in [&[0][..], &[0, 0x41, 0x42], &[0x80, 0, 0x41], &tenth] {
        differs(&primitive("compact_bytes", message), 3, "no 6 0 0");
    }
}

#[test]
fn differences_in_size() {
    let zeros = vec![0; 1_048_577];
    differs(&response(0, 0, &zeros), 5, "no 2 0 0 ");
    differs(&primitive("int16", &zeros), 5, "no 2 0 0");
    differs(&primitive("int16", &zeros[1..]), None, "ok 2 0");
    let own = vec![Own::Number(0), Own::Number(0), Own::Absent, Own::Number(1)];
    for (length, entry, begins) in [(1_048_565, Some(5), "no 2 0 0 "), (1_048_564, None, "ok 1048576 ")] {
        let tables = vec![vec![], vec![5, 0, length]];
        let (room, lent) = (1_048_577, vec![0; 1_048_570]);
        differs(
            &Case::WriteBody { call: &RESPONSE_WRITE, room, version: 3, lent, own: own.clone(), tables },
            entry,
            begins,
        );
    }
}

#[test]
fn differences_in_room() {
    let own = vec![Own::Number(0), Own::Number(1), Own::Absent, Own::Number(-1)];
    let tables = vec![vec![18, 0, 3, -1], vec![]];
    let case = Case::WriteBody { call: &RESPONSE_WRITE, room: 5, version: 0, lent: vec![], own, tables };
    differs(&case, 7, "no 10 0 12 a5a5a5a5a5 kept");
}

#[test]
fn refusals_have_the_places_of_entry_8() {
    let nines = [[0xff; 9].as_slice(), &[0x80, 0]].concat();
    differs(&primitive("int32", &[0, 0, 1]), None, "no 3 0 0");
    differs(&primitive("string", &[0xff, 0xff, 0x61]), None, "no 4 0 0");
    differs(&primitive("string", &[0, 2, 0xc3, 0x28, 0xff]), None, "no 7 2 0");
    differs(&primitive("unsigned_varint", &nines), None, "no 5 0 0");
}

#[test]
fn differences_in_whole_reads() {
    differs(&response(1, 0, &[0, 0, 255, 255, 255, 255]), 9, "no 8 2 0 ");
    differs(&response(1, 3, &[0; 8]), 9, "no 8 2 0 ");
    differs(&response(0, 3, &[0; 8]), None, "ok 8 0 0 0 0 ");
    differs(&response(1, 0, &[E9.as_slice(), &[0xde, 0xad]].concat()), 10, "no 9 12 0 ");
    differs(&response(0, 0, &[E9.as_slice(), &[0xde, 0xad]].concat()), None, "ok 12 ");
}

#[test]
fn differences_in_what_can_be_said() {
    differs(&write("write_string", 4, Value::Contents(vec![0xc0, 0x80])), 12, "no 7 0 0 ");
    differs(&write("write_int16", 4, Value::Number(70_000)), 12, "no 11 0 0 ");
    differs(&write("write_string", 4, Value::Contents(vec![b'a'; 32_768])), None, "no 11 0 0 ");
}

#[test]
fn differences_in_versions_of_metadata() {
    for version in [-1, -32_768] {
        differs(&metadata(version, &[0; 8]), 1, "no 1 0 0 ");
        differs(&Case::Host { version, node: 0, message: vec![0; 8] }, 1, "no 1 0 0");
        differs(&metadata_request(version, 9, b"t", 1, Own::Absent), 1, "no 1 0 0 ");
        differs(&metadata_request(version, 9, b"t", 1, Own::Flag(true)), 1, "no 1 0 0 ");
        assert!(matches!(rust::metadata::read_response(version, &[0; 8]), Heard::Gave((_, 8))));
    }
    differs(&metadata(5, &[0; 8]), 2, "no 1 0 0 ");
    differs(&Case::Host { version: 5, node: 0, message: vec![0; 8] }, 2, "no 1 0 0");
    differs(&metadata_request(5, 9, b"t", 1, Own::Flag(true)), 2, "no 1 0 0 ");
    assert!(matches!(rust::metadata::read_response(5, &[0; 8]), Heard::Panicked(_)));
}

#[test]
fn differences_in_auto_creation() {
    for version in 0..=3 {
        for flag in [true, false] {
            differs(&metadata_request(version, 9, b"t", 1, Own::Flag(flag)), 4, "ok 7 00000001000174a5a5 kept");
            let refused = rust::metadata::write_request(
                version,
                &metadata_request(version, 9, b"t", 1, Own::Flag(flag)).given().unwrap(),
            );
            assert_eq!(refused, Ok(Heard::Refused));
        }
        differs(&metadata_request(version, 9, b"t", 1, Own::Absent), None, "ok 7 00000001000174a5a5 kept");
    }
    differs(&metadata_request(4, 9, b"t", 1, Own::Flag(false)), None, "ok 8 0000000100017400a5 kept");
    differs(&metadata_request(4, 9, b"t", 1, Own::Absent), None, "ok 8 0000000100017401a5 kept");
}

#[test]
fn differences_in_sizes_of_metadata() {
    let name = [b'a'; 32_767];
    differs(&metadata_request(4, 1_048_640, &name, 33, Own::Absent), 5, "no 2 0 0 ");
    differs(&metadata_request(4, 1_048_640, &name, 31, Own::Absent), None, "ok 1015844 ");
    differs(&metadata_request(0, 9, b"abcdef", 1, Own::Absent), 7, "no 10 0 12 a5*9 kept");
    differs(&metadata(0, &vec![0; 1_048_577]), 5, "no 2 0 0 ");
    differs(&metadata(0, &vec![0; 1_048_576]), None, "ok 8 ");
}

#[test]
fn differences_in_what_a_metadata_request_can_say() {
    differs(&metadata_request(4, 9, &[0xc0, 0x80], 1, Own::Absent), 12, "no 7 0 0 ");
    differs(&metadata_request(4, 9, &[b'a'; 32_768], 1, Own::Absent), None, "no 11 0 0 ");
}

fn fetch(version: i16, message: &[u8]) -> Case {
    Case::ReadBody { call: &FETCH_READ, version, rooms: vec![0; 3], message: message.to_vec() }
}

/// A Fetch request for one topic of that name and so many partitions.
fn fetch_request(version: i16, room: usize, name: &[u8], partitions: usize, isolation: Own) -> Case {
    let own = [-1, 500, 1].map(Own::Number).into_iter().chain([Own::Absent, isolation, Own::Number(1)]).collect();
    let tables = vec![vec![0, name.len() as i64, partitions as i64], [0, 1, 2].repeat(partitions)];
    Case::WriteBody { call: &FETCH_REQUEST_WRITE, room, version, lent: name.to_vec(), own, tables }
}

#[test]
fn differences_in_versions_of_fetch() {
    for version in [-1, -32_768] {
        differs(&fetch(version, &[0; 8]), 1, "no 1 0 0 ");
        differs(&fetch_request(version, 9, b"t", 1, Own::Absent), 1, "no 1 0 0 ");
        assert!(matches!(rust::fetch::read_response(version, &[0; 8]), Heard::Gave((_, 4))));
    }
    differs(&fetch(5, &[0; 8]), 2, "no 1 0 0 ");
    differs(&fetch_request(5, 9, b"t", 1, Own::Absent), 2, "no 1 0 0 ");
    assert!(matches!(rust::fetch::read_response(5, &[0; 8]), Heard::Panicked(_)));
}

#[test]
fn differences_in_sizes_of_fetch() {
    differs(&fetch_request(4, 1_048_640, b"t", 70_000, Own::Absent), 5, "no 2 0 0 ");
    differs(&fetch_request(4, 1_048_640, b"t", 65_534, Own::Absent), None, "ok 1048572 ");
    differs(&fetch_request(4, 1_048_640, b"abcde", 65_534, Own::Absent), None, "ok 1048576 ");
    differs(&fetch_request(4, 1_048_640, b"abcdef", 65_534, Own::Absent), 5, "no 2 0 0 ");
    differs(&fetch_request(0, 38, b"t", 1, Own::Absent), 7, "no 10 0 39 ");
    differs(&fetch(0, &vec![0; 1_048_577]), 5, "no 2 0 0 ");
    differs(&fetch(0, &vec![0; 1_048_576]), None, "ok 4 ");
}

#[test]
fn differences_in_isolation() {
    differs(&fetch_request(4, 44, b"t", 1, Own::Number(2)), 11, "no 11 0 0 ");
    differs(&fetch_request(3, 43, b"t", 1, Own::Number(2)), 11, "ok 43 ");
    differs(&fetch_request(4, 44, b"t", 1, Own::Number(1)), None, "ok 44 ffffffff000001f4000000017fffffff0100000001");
    differs(&fetch_request(4, 44, b"t", 1, Own::Number(0)), None, "ok 44 ffffffff000001f4000000017fffffff0000000001");
}

/// And entry 6: the Rust has fields out already when it refuses the second name.
#[test]
fn differences_in_what_a_fetch_request_can_say() {
    differs(&fetch_request(4, 9, &[0xc0, 0x80], 1, Own::Absent), 12, "no 7 0 0 ");
    differs(&fetch_request(4, 9, &[b'a'; 32_768], 1, Own::Absent), None, "no 11 0 0 ");
    let Case::WriteBody { call, room, version, mut own, .. } = fetch_request(4, 9, b"t", 1, Own::Absent) else {
        unreachable!()
    };
    own[5] = Own::Number(2);
    let tables = vec![vec![0, 1, 1, 0, 32_768, 0], vec![0, 1, 2]];
    let case = Case::WriteBody { call, room, version, lent: vec![b't'; 32_768], own, tables };
    differs(&case, None, "no 11 0 0 a5*9 kept");
}
