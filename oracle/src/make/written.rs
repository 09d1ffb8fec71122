//! Writes at the ends of numbers, lengths and sizes, into outputs that just hold them or just do not.
use super::boundaries::{form_of, SIZES};
use super::wire::{filling, BOUNDARIES};
use super::writes::MOST_BYTES;
use super::Section;
use crate::calls::{WriteBody, PRIMITIVES, REQUEST_WRITE, RESPONSE_WRITE, WRITE_TAGGED_FIELDS};
use crate::case::Case;
use crate::model::primitives::Primitive;
use crate::model::write::{self, Given, Own, Value};

/// Rooms around a need: exact, one short, none, one more, as large as can be.
pub const ROOMS: u64 = 5;

pub fn room(turn: u64, need: usize) -> usize {
    let room = match turn {
        0 => need,
        1 => need.saturating_sub(1),
        2 => 0,
        3 => need + 1,
        _ => MOST_BYTES,
    };
    room.min(MOST_BYTES)
}

/// Numbers around the ends of every width, and the boundaries of counts.
fn numbers() -> Vec<i64> {
    let ends = [7, 8, 15, 16, 31, 32, 63].into_iter().flat_map(|bits| {
        let end = (1i128 << bits) as i64;
        [end.wrapping_sub(1), end, end.wrapping_add(1), end.wrapping_neg(), end.wrapping_neg().wrapping_sub(1)]
    });
    BOUNDARIES.into_iter().map(|n| n as i64).chain(ends).chain([-1, -2, 300, 70_000]).collect()
}

/// Every primitive that is a number or a count.
pub fn of_numbers() -> Section {
    let mut list = vec![];
    for call in &PRIMITIVES {
        match call.primitive {
            Primitive::Boolean => list.extend([0, 1].map(|n| (call, Value::Number(n)))),
            Primitive::Bytes(..) | Primitive::Text(..) => {}
            _ => list.extend(numbers().into_iter().map(|n| (call, Value::Number(n)))),
        }
        if is_nullable(call.write) {
            list.push((call, Value::Null));
        }
    }
    Section::new(ROOMS * list.len() as u64, move |index| {
        let (call, value) = &list[(index / ROOMS) as usize];
        let need = write::write(call.primitive, value).map_or(9, |bytes| bytes.len());
        Case::Write { call, room: room(index % ROOMS, need), value: value.clone() }
    })
}

fn is_nullable(name: &str) -> bool {
    name.contains("nullable") || name.contains("count")
}

/// Contents of every size and of sizes that fill the limit with their length in front; half of the texts ill-formed at the end.
pub fn of_contents() -> Section {
    let mut list = vec![];
    for call in PRIMITIVES.iter().filter(|call| matches!(call.primitive, Primitive::Bytes(..) | Primitive::Text(..))) {
        for size in SIZES {
            let filling = form_of(call.primitive).map_or(0, |form| filling(form, size));
            for contents in [0, 1, size, filling] {
                list.extend([b'a', 0xff].map(|last| (call, contents, last)));
            }
        }
    }
    Section::new(list.len() as u64, move |index| {
        let (call, size, last) = list[index as usize];
        let mut contents = vec![b'a'; size];
        contents.last_mut().into_iter().for_each(|byte| *byte = last);
        let value = Value::Contents(contents);
        let need = write::write(call.primitive, &value).map_or(9, |bytes| bytes.len());
        Case::Write { call, room: room(index % ROOMS, need), value }
    })
}

/// What a body that fills each size is written with: an output that holds it or is one short, or a fault that comes before 2.
#[derive(Clone, Copy)]
enum Turn {
    Exact,
    Short,
    /// 11 in a response and 7 in a request.
    Field,
    /// 13.
    Range,
}

/// One tag, or a name, that makes the body as large as each size; and the fullest tables.
pub fn of_bodies() -> Section {
    let mut list = vec![];
    for size in SIZES {
        for turn in [Turn::Exact, Turn::Short, Turn::Field, Turn::Range] {
            list.push((&WRITE_TAGGED_FIELDS, 0, size, turn));
            let calls = [&RESPONSE_WRITE, &REQUEST_WRITE];
            list.extend((0..=3).flat_map(|version| calls.map(|call| (call, version, size, turn))));
        }
    }
    let sized = list.len() as u64;
    Section::new(sized + 4, move |index| match index.checked_sub(sized) {
        Some(version) => full(version as i16),
        None => {
            let (call, version, size, turn) = list[index as usize];
            one_part(call, version, size, turn)
        }
    })
}

/// Own words and tables whose only contents are the first bytes that are lent.
fn shaped(call: &WriteBody, length: i64) -> (Vec<Own>, Vec<Vec<i64>>) {
    let tag = vec![5, 0, length];
    match call.name {
        "request_write" => (vec![Own::Part(0, length), Own::Absent, Own::Number(-1)], vec![vec![]]),
        "response_write" => (vec![Own::Number(0), Own::Number(0), Own::Absent, Own::Number(1)], vec![vec![], tag]),
        _ => (vec![Own::Number(1)], vec![tag]),
    }
}

/// A body with one part, of the length that makes the size at the last version, if one does.
fn one_part(call: &'static WriteBody, version: i16, size: usize, turn: Turn) -> Case {
    let mut lent = vec![b'a'; size];
    let need = |length: usize| {
        let (own, tables) = shaped(call, length as i64);
        let given = Given { lent: &lent, own: &own, tables: &tables };
        (call.model)(call.last.unwrap_or(0), &given).map_or(0, |bytes| bytes.len())
    };
    let length = (0..size).rev().find(|length| need(*length) <= size).unwrap_or(0);
    let mut room = room(0, need(length));
    let (mut own, tables) = shaped(call, length as i64);
    match turn {
        Turn::Exact => {}
        Turn::Short => room -= 1,
        Turn::Field => {
            lent[0] = 0xff;
            own[0] = if call.name == "response_write" { Own::Number(70_000) } else { own[0] };
        }
        Turn::Range => lent.truncate(length - 1),
    }
    Case::WriteBody { call, room, version, lent, own, tables }
}

/// As many items as a table can have cells for.
fn full(version: i16) -> Case {
    let own = vec![Own::Number(0), Own::Number(16_384), Own::Absent, Own::Number(-1)];
    let items = [1, 2, 3, -1].repeat(16_384);
    Case::WriteBody { call: &RESPONSE_WRITE, room: 130_000, version, lent: vec![], own, tables: vec![items, vec![]] }
}
