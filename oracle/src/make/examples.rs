//! The worked examples E1 to E12 and the further ones that are calls here: docs/RULES.md, section 12. Each has the answer
//! that the page gives, written down by hand, so the model is held against it too (tests/examples.rs).
use super::{frames, Section};
use crate::calls::{ReadBody, WriteBody, FETCH_READ, FETCH_REQUEST_WRITE, METADATA_READ, METADATA_REQUEST_WRITE};
use crate::calls::{PRIMITIVES, REQUEST_WRITE, RESPONSE_READS, RESPONSE_WRITE};
use crate::case::Case;
use crate::model::write::{Own, Value};

pub fn section() -> Section {
    Section::new(all().len() as u64, |index| all().swap_remove(index as usize).0)
}

/// Each case with the line that answers it.
pub fn all() -> Vec<(Case, &'static str)> {
    let older = [primitives(), responses(), further(), metadata(), lookups(), metadata_requests()];
    older.into_iter().chain([fetch(), fetch_requests(), frames::examples::all()]).flatten().collect()
}

fn bytes(hex: &str) -> Vec<u8> {
    let digits: Vec<u8> = hex.bytes().filter(|b| *b != b' ').collect();
    digits.chunks(2).map(|pair| u8::from_str_radix(std::str::from_utf8(pair).unwrap(), 16).unwrap()).collect()
}

fn read(name: &str, hex: &str) -> Case {
    let call = PRIMITIVES.iter().find(|call| call.read == name).expect("a primitive");
    Case::Read { call, message: bytes(hex) }
}

pub fn write(name: &str, room: usize, value: Value) -> Case {
    let call = PRIMITIVES.iter().find(|call| call.write == name).expect("a primitive");
    Case::Write { call, room, value }
}

fn primitives() -> Vec<(Case, &'static str)> {
    let nines = |last: &str| "ff".repeat(9) + last;
    vec![
        (read("unsigned_varint", "ac02"), "ok 2 300"),
        (write("write_unsigned_varint", 3, Value::Number(300)), "ok 2 ac02a5 kept"),
        (read("unsigned_varint", &nines("01")), "ok 10 18446744073709551615"),
        (read("unsigned_varint", &nines("7f")), "ok 10 18446744073709551615"),
        (read("unsigned_varint", &"80".repeat(10)), "no 5 0 0"),
        (read("varint", "01"), "ok 1 -1"),
        (write("write_varint", 1, Value::Number(-1)), "ok 1 01 kept"),
        (read("varint", "ffffffff0f"), "ok 5 -2147483648"),
        (write("write_varint", 5, Value::Number(-(1 << 31))), "ok 5 ffffffff0f kept"),
        (read("varint", "8080808010"), "no 11 0 0"),
        (read("nullable_string", "ffff"), "ok 2 null"),
        (read("nullable_string", "fffe"), "no 4 0 0"),
        (read("compact_string", "00"), "no 6 0 0"),
        (read("compact_string", "01"), "ok 1 1:-"),
    ]
}

fn response(call: &'static ReadBody, version: i16, hex: &str) -> Case {
    Case::ReadBody { call, version, rooms: vec![8, 3], message: bytes(hex) }
}

fn put(call: &'static WriteBody, version: i16, room: usize, lent: &str, own: &[Own], tables: &[&[i64]]) -> Case {
    let tables = tables.iter().map(|cells| cells.to_vec()).collect();
    Case::WriteBody { call, room, version, lent: bytes(lent), own: own.to_vec(), tables }
}

fn responses() -> Vec<(Case, &'static str)> {
    let [prefix, whole, _] = &RESPONSE_READS;
    let (number, unset) = (Own::Number, Own::Absent);
    let e9 = "0000 00000001 0012 0000 0003";
    let e10 = "0000 00000001 0012 0000 0003 00000000";
    let e11 = "0000 02 0012 0000 0003 00 00000000 00";
    let e12 = "0000 00000000 00010500";
    let one = [number(0), number(1), unset, number(-1)];
    let write = &RESPONSE_WRITE;
    vec![
        (put(write, 0, 14, "", &one, &[&[18, 0, 3, -1], &[]]), "ok 12 000000000001001200000003a5a5 kept"),
        (response(whole, 0, e9), "ok 12 0 1 absent -1 18,0,3,-1,777*4 777,777,777 kept"),
        (response(whole, 1, e9), "no 3 12 0 777*8 777,777,777 kept"),
        (response(whole, 3, e9), "no 8 2 0 777*8 777,777,777 kept"),
        (
            put(write, 1, 16, "", &[number(0), number(1), number(0), number(-1)], &[&[18, 0, 3, -1], &[]]),
            "ok 16 00000000000100120000000300000000 kept",
        ),
        (response(whole, 1, e10), "ok 16 0 1 0 -1 18,0,3,-1,777*4 777,777,777 kept"),
        (response(whole, 0, e10), "no 9 12 0 777*8 777,777,777 kept"),
        (
            put(write, 3, 15, "", &[number(0), number(1), number(0), number(0)], &[&[18, 0, 3, 0], &[]]),
            "ok 15 000002001200000003000000000000 kept",
        ),
        (response(whole, 3, e11), "ok 15 0 1 0 0 18,0,3,0,777*4 777,777,777 kept"),
        (response(whole, 0, e11), "no 3 14 0 777*8 777,777,777 kept"),
        (
            put(write, 1, 10, "", &[number(0), number(0), number(66_816), number(-1)], &[&[], &[]]),
            "ok 10 00000000000000010500 kept",
        ),
        (response(prefix, 3, e12), "ok 10 0 0 0 1 777*8 5,10,0 kept"),
        (response(whole, 3, e12), "no 8 2 0 777*8 777,777,777 kept"),
    ]
}

fn further() -> Vec<(Case, &'static str)> {
    let rows = [18, 0, 4, -1, 3, -1, 0, -1, 1, 0, 3, -1, 1, 4, 4, -1];
    let mut list = vec![
        (read("string", "0004 f48fbfbf"), "ok 6 2:f48fbfbf"),
        (read("string", "0004 f4908080"), "no 7 2 0"),
        (read("string", "0002 c080"), "no 7 2 0"),
        (read("string", "0003 eda080"), "no 7 2 0"),
        (read("string", "0004 c080"), "no 3 0 0"),
        (Case::WellFormed(bytes("61f48fbfbf")), "ok 5"),
        (Case::WellFormed(bytes("61eda080")), "ok 1"),
        (Case::IsText(bytes("c080")), "ok 0"),
        (write("write_string", 32_770, Value::Contents(vec![b'a'; 32_767])), "ok 32769 7fff,61*32767,a5 kept"),
        (write("write_string", 9, Value::Contents(vec![b'a'; 32_768])), "no 11 0 0 a5*9 kept"),
        (write("write_int16", 2, Value::Number(70_000)), "no 11 0 0 a5a5 kept"),
        (put(&REQUEST_WRITE, 3, 4, "", &[Own::Absent, Own::Absent, Own::Number(-1)], &[&[]]), "ok 3 010100a5 kept"),
        (
            put(
                &RESPONSE_WRITE,
                0,
                8,
                "",
                &[Own::Number(0), Own::Number(-1), Own::Absent, Own::Number(-1)],
                &[&[], &[]],
            ),
            "no 13 0 0 a5*8 kept",
        ),
        (Case::Agree(rows.to_vec()), "ok 18 3 4 3 0 0 1 -1 3"),
    ];
    for call in &RESPONSE_READS {
        list.extend((0..=3).map(|version| (response(call, version, ""), "no 3 0 0 777*8 777,777,777 kept")));
    }
    list
}

/// One broker, one topic and one partition at version 1; its in-sync replicas are null.
const METADATA: &str = "00000001 00000001 0001 68 00002384 ffff 00000001 00000001 0000 0001 74 01 00000001 \
                        0000 00000000 00000001 00000002 00000001 00000002 ffffffff";

fn metadata_read(version: i16, rooms: [usize; 5], hex: &str) -> Case {
    Case::ReadBody { call: &METADATA_READ, version, rooms: rooms.to_vec(), message: bytes(hex) }
}

fn metadata() -> Vec<(Case, &'static str)> {
    let read = metadata_read;
    let mut list = vec![
        (
            read(1, [8, 5, 5, 2, 0], METADATA),
            "ok 61 absent 1 absent 1 1 1,10,1,9092,1,0,0,777 0,29,1,1,1 0,0,1,2,-1 1,2 - kept",
        ),
        (read(1, [7, 5, 5, 1, 0], METADATA), "no 10 0 2 777*7 777*5 777*5 777 - kept"),
        (read(1, [6, 4, 5, 1, 0], METADATA), "no 10 0 1 777*6 777*4 777*5 777 - kept"),
        (read(0, [7, 5, 5, 2, 0], METADATA), "no 4 15 0 777*7 777*5 777*5 777,777 - kept"),
        (read(2, [7, 5, 5, 2, 0], METADATA), "no 3 29 0 777*7 777*5 777*5 777,777 - kept"),
        (read(5, [0; 5], METADATA), "no 1 0 0 - - - - - kept"),
        (read(0, [0; 5], "ffffffff ffffffff 00"), "ok 8 absent 0 absent absent 0 - - - - - kept"),
        (read(4, [0; 5], "00000000 ffffffff ffff ffffffff ffffffff"), "ok 18 0 0 null -1 0 - - - - - kept"),
        (read(4, [0; 5], "00000000 ffffffff 0000 ffffffff ffffffff"), "ok 18 0 0 10:- -1 0 - - - - - kept"),
        (read(3, [0; 5], "00000009 00000000 fffe"), "no 4 8 0 - - - - - kept"),
        (read(0, [0; 5], "00000000 7fffffff"), "no 3 8 0 - - - - - kept"),
        (read(0, [0; 5], "00000001 00000001 0002 c080"), "no 7 10 0 - - - - - kept"),
        // A rack that is absent, and one that is empty.
        (
            read(0, [7, 0, 0, 0, 0], "00000001 00000001 0000 00000000 00000000"),
            "ok 18 absent 1 absent absent 0 1,10,0*5 - - - - kept",
        ),
        (
            read(1, [7, 0, 0, 0, 0], "00000001 00000001 0000 00000000 0000 00000005 00000000"),
            "ok 24 absent 1 absent 5 0 1,10,0,0,2,16,0 - - - - kept",
        ),
        // No flag at version 0, and replicas that are empty.
        (
            read(0, [0, 5, 5, 0, 0], "00000000 00000001 fffd 0000 00000001 0003 00000002 ffffffff 00000000 ffffffff"),
            "ok 34 absent 0 absent absent 1 - -3,12,0,-1,1 3,2,-1,0,-1 - - kept",
        ),
    ];
    list.extend((0..=4).map(|version| (read(version, [0; 5], ""), "no 3 0 0 - - - - - kept")));
    list
}

fn lookups() -> Vec<(Case, &'static str)> {
    let brokers = "00000002 00000001 0000 00002384 00000002 0001 68 00002384 00000000";
    let twice = "00000002 ffffffff 0001 61 00000000 ffffffff 0001 62 00000000 00000000";
    let host = |version, node, hex: &str| Case::Host { version, node, message: bytes(hex) };
    let mut list = vec![
        (host(0, 1, brokers), "ok 10:-"),
        (host(0, 2, brokers), "ok 20:68"),
        (host(0, 3, brokers), "ok none"),
        (host(0, (1 << 32) + 2, brokers), "ok none"),
        (host(0, 1, &brokers[..brokers.len() - 2]), "no 3 25 0"),
        (host(1, 1, brokers), "no 3 20 0"),
        (host(-1, 1, brokers), "no 1 0 0"),
        (host(0, -1, twice), "ok 10:61"),
        (host(0, (1 << 32) - 1, twice), "ok none"),
        (host(1, 1, METADATA), "ok 10:68"),
        (host(1, 2, METADATA), "ok none"),
    ];
    list.extend((0..=4).map(|version| (host(version, 0, ""), "no 3 0 0")));
    list
}

fn metadata_requests() -> Vec<(Case, &'static str)> {
    let write = |version, room, lent: &str, topics, creation, cells: &[i64]| {
        put(&METADATA_REQUEST_WRITE, version, room, lent, &[Own::Number(topics), creation], &[cells])
    };
    let (unset, yes, no) = (Own::Absent, Own::Flag(true), Own::Flag(false));
    vec![
        (write(0, 4, "", -1, unset, &[]), "ok 4 ffffffff kept"),
        (write(4, 6, "", -1, unset, &[]), "ok 5 ffffffff01a5 kept"),
        (write(4, 5, "", 0, no, &[]), "ok 5 0000000000 kept"),
        (write(4, 8, "74", 1, yes, &[0, 1]), "ok 8 0000000100017401 kept"),
        (write(3, 8, "74", 1, no, &[0, 1]), "ok 7 00000001000174a5 kept"),
        (write(0, 9, "616263646566", 1, unset, &[0, 6]), "no 10 0 12 a5*9 kept"),
        (write(0, 4, "74", 1, unset, &[1, 1]), "no 13 0 0 a5a5a5a5 kept"),
        (write(0, 4, "74", -1, unset, &[0, 1]), "no 13 0 0 a5a5a5a5 kept"),
        (write(0, 4, "", -2, unset, &[]), "no 13 0 0 a5a5a5a5 kept"),
        (write(0, 4, "c080", 1, unset, &[0, 2]), "no 7 0 0 a5a5a5a5 kept"),
        (write(0, 4, &"61".repeat(32_768), 1, unset, &[0, 32_768]), "no 11 0 0 a5a5a5a5 kept"),
        (write(5, 4, "c080", 7, unset, &[0, 3]), "no 1 0 0 a5a5a5a5 kept"),
    ]
}

/// One topic and one partition at version 4, with an aborted pair and null records.
const FETCH: &str = "00000009 00000001 0001 61 00000001 00000002 0000 0000000000000005 0000000000000004 \
                     00000001 0000000000000006 0000000000000003 ffffffff";

fn fetch_read(version: i16, rooms: [usize; 3], hex: &str) -> Case {
    Case::ReadBody { call: &FETCH_READ, version, rooms: rooms.to_vec(), message: bytes(hex) }
}

fn fetch() -> Vec<(Case, &'static str)> {
    let read = fetch_read;
    // Up to its records, an empty name and one partition: at 0, and at 4 with null aborted pairs.
    let zero = |records: &str| format!("00000001 0000 00000001 00000007 fffd 8000000000000000 {records}");
    let four = |records: &str| {
        let partition = "00000000 ffff 8000000000000000 ffffffffffffffff ffffffff";
        format!("00000000 00000001 0000 00000001 {partition} {records}")
    };
    let mut list = vec![
        (read(4, [3, 7, 2], FETCH), "ok 61 9 1 10,1,1 2,0,5,4,1,61,0 6,3 kept"),
        (read(4, [4, 8, 3], FETCH), "ok 61 9 1 10,1,1,777 2,0,5,4,1,61,0,777 6,3,777 kept"),
        (read(4, [3, 7, 1], FETCH), "no 10 0 1 777,777,777 777*7 777 kept"),
        (read(4, [2, 6, 0], FETCH), "no 10 0 1 777,777 777*6 - kept"),
        // At 3 the stable offset is a length of 0 and what is left over; at 0 there are nine topics.
        (read(3, [3, 7, 0], FETCH), "ok 33 9 1 10,1,1 2,0,5,-1,0,33,0 - kept"),
        (read(0, [3, 7, 2], FETCH), "no 3 60 0 777,777,777 777*7 777,777 kept"),
        (read(5, [0; 3], FETCH), "no 1 0 0 - - - kept"),
        (read(-1, [0; 3], FETCH), "no 1 0 0 - - - kept"),
        (read(0, [0; 3], "ffffffff 00"), "ok 4 absent 0 - - - kept"),
        (read(1, [0; 3], "80000000 ffffffff"), "ok 8 -2147483648 0 - - - kept"),
        (read(2, [0; 3], "00000000 fffffffe"), "no 4 4 0 - - - kept"),
        (read(0, [0; 3], "7fffffff"), "no 3 4 0 - - - kept"),
        (read(0, [3, 0, 0], "00000001 0000 ffffffff"), "ok 10 absent 1 6,0,0 - - kept"),
        (read(0, [0; 3], "00000001 ffff ffffffff"), "no 4 4 0 - - - kept"),
        (read(0, [0; 3], "00000001 0002 c080 00000000"), "no 7 6 0 - - - kept"),
        (read(0, [0; 3], "00000001 0002 c0"), "no 3 4 0 - - - kept"),
        (
            read(0, [3, 7, 0], &zero("00000002 abcd ef")),
            "ok 30 absent 1 6,0,1 7,-3,-9223372036854775808,-1,0,28,2 - kept",
        ),
        (read(0, [3, 7, 0], &zero("ffffffff")), "ok 28 absent 1 6,0,1 7,-3,-9223372036854775808,-1,0,28,0 - kept"),
        (read(0, [0; 3], &zero("00000003 abcd")), "no 3 24 0 - - - kept"),
        (read(0, [0; 3], &zero("fffffffe")), "no 4 24 0 - - - kept"),
        (read(4, [3, 7, 0], &four("00000002 abcd")), "ok 46 0 1 10,0,1 0,-1,-9223372036854775808,-1,0,44,2 - kept"),
    ];
    // Aborted pairs that are cut, and a count of them that is too low.
    let front = &FETCH[..FETCH.len() - 8];
    list.extend([
        (read(4, [0; 3], &front[..front.len() - 3]), "no 3 49 0 - - - kept"),
        (read(4, [0; 3], &front.replace("00000001 0000000000000006", "fffffffe 00")), "no 4 37 0 - - - kept"),
    ]);
    list.extend((0..=4).map(|version| (read(version, [0; 3], ""), "no 3 0 0 - - - kept")));
    list
}

fn fetch_requests() -> Vec<(Case, &'static str)> {
    let (number, unset) = (Own::Number, Own::Absent);
    let own =
        |wait, largest, isolation, topics| [number(-1), number(wait), number(1), largest, isolation, number(topics)];
    let write = |version, room, lent: &str, own: [Own; 6], topics: &[i64], partitions: &[i64]| {
        put(&FETCH_REQUEST_WRITE, version, room, lent, &own, &[topics, partitions])
    };
    let none = |largest, isolation| own(500, largest, isolation, 0);
    let one = own(0, unset, unset, 1);
    let rows = |topics: &[i64], partitions: &[i64]| write(0, 9, "636162", one, topics, partitions);
    let long = "61".repeat(32_768);
    vec![
        (write(4, 22, "", none(unset, unset), &[], &[]), "ok 21 ffffffff000001f4000000017fffffff0000000000a5 kept"),
        (write(4, 22, "", none(unset, number(2)), &[], &[]), "no 11 0 0 a5*22 kept"),
        (write(3, 19, "", none(unset, number(2)), &[], &[]), "no 10 0 20 a5*19 kept"),
        (write(3, 20, "", none(unset, number(2)), &[], &[]), "ok 20 ffffffff000001f4000000017fffffff00000000 kept"),
        (
            write(4, 21, "", none(number(5), number(1)), &[], &[]),
            "ok 21 ffffffff000001f400000001000000050100000000 kept",
        ),
        (write(4, 21, "", none(unset, number(256)), &[], &[]), "no 11 0 0 a5*21 kept"),
        (write(2, 16, "", none(number(1 << 31), unset), &[], &[]), "ok 16 ffffffff000001f40000000100000000 kept"),
        (write(3, 20, "", none(number(1 << 31), unset), &[], &[]), "no 11 0 0 a5*20 kept"),
        (
            write(0, 41, "636162", one, &[1, 2, 1], &[3, 256, 1]),
            "ok 40 ffffffff000000000000000100000001000261620000000100000003000000000000010000000001a5 kept",
        ),
        (rows(&[1, 2, 1], &[3, 256, 1]), "no 10 0 40 a5*9 kept"),
        (rows(&[1, 2, 2], &[3, 256, 1]), "no 13 0 0 a5*9 kept"),
        (rows(&[2, 2, 1], &[3, 256, 1]), "no 13 0 0 a5*9 kept"),
        (rows(&[1, 2, -1], &[]), "no 13 0 0 a5*9 kept"),
        (rows(&[1, 2, 1], &[3, 256]), "no 13 0 0 a5*9 kept"),
        (write(0, 9, "", own(0, unset, unset, -1), &[], &[]), "no 13 0 0 a5*9 kept"),
        // Counts before numbers, and these and texts by their fields.
        (write(0, 9, "c080", own(1 << 31, unset, unset, 2), &[0, 2, 0], &[]), "no 13 0 0 a5*9 kept"),
        (write(0, 9, "c080", own(1 << 31, unset, unset, 1), &[0, 2, 0], &[]), "no 11 0 0 a5*9 kept"),
        (write(0, 9, "c080", one, &[0, 2, 1], &[1 << 31, 0, 0]), "no 7 0 0 a5*9 kept"),
        (write(0, 9, "61ff", own(0, unset, unset, 2), &[0, 1, 1, 1, 1, 0], &[0, 0, 1 << 31]), "no 11 0 0 a5*9 kept"),
        (write(0, 9, &long, one, &[0, 32_768, 0], &[]), "no 11 0 0 a5*9 kept"),
        (write(5, 9, "c080", own(1 << 31, unset, number(2), 7), &[0, 3, -1], &[]), "no 1 0 0 a5*9 kept"),
    ]
}
