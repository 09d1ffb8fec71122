//! Varints to write, where their length changes: the last number of so many bytes, and the first that needs one more. Each has
//! just the room that it needs and, of those by themselves and of all of them as tags, also a byte less.
use super::examples::write;
use super::Section;
use crate::calls::WRITE_TAGGED_FIELDS;
use crate::case::Case;
use crate::model::write::{Own, Value};

/// Numbers and how many bytes each takes: 0, both ends of each group of seven bits, and 2^64 - 1.
pub const LENGTHS: [(u64, usize); 20] = [
    (0, 1),
    ((1 << 7) - 1, 1),
    (1 << 7, 2),
    ((1 << 14) - 1, 2),
    (1 << 14, 3),
    ((1 << 21) - 1, 3),
    (1 << 21, 4),
    ((1 << 28) - 1, 4),
    (1 << 28, 5),
    ((1 << 35) - 1, 5),
    (1 << 35, 6),
    ((1 << 42) - 1, 6),
    (1 << 42, 7),
    ((1 << 49) - 1, 7),
    (1 << 49, 8),
    ((1 << 56) - 1, 8),
    (1 << 56, 9),
    ((1 << 63) - 1, 9),
    (1 << 63, 10),
    (u64::MAX, 10),
];

/// The most contents that are laid out after a compact length.
const MOST_CONTENTS: u64 = 16_383;

/// A Varlong whose zigzag is that number.
fn varlong(n: u64, room: usize) -> Case {
    write("write_varlong", room, Value::Number((n >> 1) as i64 ^ -((n & 1) as i64)))
}

/// A count that is carried as that number, and as many bytes as are carried so.
fn compact(n: u64, length: usize) -> Vec<Case> {
    let Some(count) = n.checked_sub(1) else { return vec![] };
    let mut list = vec![write("write_compact_array_count", length, Value::Number(count as i64))];
    if count <= MOST_CONTENTS {
        let contents = vec![0; count as usize];
        list.push(write("write_compact_bytes", length + contents.len(), Value::Contents(contents)));
    }
    list
}

/// All of them as tags without data. Their count and the lengths of their data take a byte each.
fn tags(short: usize) -> Case {
    let count = LENGTHS.len();
    let room = 1 + LENGTHS.iter().map(|(_, length)| length + 1).sum::<usize>() - short;
    let table = LENGTHS.iter().flat_map(|(tag, _)| [*tag as i64, 0, 0]).collect();
    let own = vec![Own::Number(count as i64)];
    Case::WriteBody { call: &WRITE_TAGGED_FIELDS, room, version: 0, lent: vec![], own, tables: vec![table] }
}

pub fn stored() -> Vec<Case> {
    let alone = |room, n| write("write_unsigned_varint", room, Value::Number(n as i64));
    let mut list = vec![tags(0), tags(1)];
    for (n, length) in LENGTHS {
        list.extend([alone(length, n), alone(length - 1, n), varlong(n, length)]);
        list.extend(compact(n, length));
    }
    list
}

pub fn section() -> Section {
    Section::new(stored().len() as u64, |index| stored().swap_remove(index as usize))
}
