//! Bodies at the ends of counts, lengths and rooms: what the inputs of Metadata and of Fetch have in common.
use super::reads::MOST_CELLS;
use super::wire::{carried, BOUNDARIES};
use super::writes::MOST_BYTES;
use super::Section;
use crate::calls::ReadBody;
use crate::case::Case;
use crate::model::primitives::Form;

/// What a field counts.
#[derive(Clone, Copy, PartialEq, Eq)]
pub enum Of {
    Text,
    Data,
    /// Items, and the cells of an item's row.
    Rows(usize),
}

/// A count or a length of the body, what stands in front of it, and the zeros that make one more item or byte.
pub struct Field {
    pub name: &'static str,
    pub front: Vec<u8>,
    pub each: usize,
    pub of: Of,
}

impl Field {
    fn form(&self) -> Form {
        if self.of == Of::Text {
            Form::Int16
        } else {
            Form::Int32
        }
    }

    /// Numbers around the ends of the field, and around the most rows that a table can be lent with.
    fn numbers(&self) -> Vec<u64> {
        let Of::Rows(width) = self.of else { return BOUNDARIES.to_vec() };
        let most = (MOST_CELLS / width) as u64;
        BOUNDARIES.into_iter().filter(|n| *n <= 128 || *n > MOST_ITEMS).chain([most, most + 1]).collect()
    }
}

/// Numbers above this get no contents laid out.
const MOST_ITEMS: u64 = 65_537;

/// A message of a version: its first bytes, and the zeros behind them.
pub struct Message {
    pub version: i16,
    pub front: Vec<u8>,
    pub zeros: usize,
}

/// Each count and length at its boundaries, with zeros behind: none, a few, just enough for what is told, one less, and enough
/// for the rest of the body too.
pub fn counts(versions: impl Iterator<Item = i16>, fields: fn(i16) -> Vec<Field>) -> Vec<Message> {
    let mut list = vec![];
    for version in versions {
        for field in fields(version) {
            for n in field.numbers() {
                let told = if n <= MOST_ITEMS { n as usize * field.each } else { 0 };
                let front = [field.front.as_slice(), &carried(field.form(), n)].concat();
                let mut tails = vec![0, 1, 7, 64, told.saturating_sub(1), told, told + 8, told + 40];
                tails.retain(|tail| front.len() + tail <= MOST_BYTES);
                list.extend(tails.into_iter().map(|zeros| Message { version, front: front.clone(), zeros }));
            }
        }
    }
    list
}

/// Contents of a text: well-formed, ill-formed at the front, in the middle and at the end.
const CONTENTS: [&[u8]; 10] = [
    b"",
    b"a",
    b"\xf4\x8f\xbf\xbf",
    b"\xf4\x90\x80\x80",
    b"\xc0\x80",
    b"\xed\xa0\x80",
    b"a\xc3\x28b",
    b"abcdefgh\xe2\x82",
    b"\xff",
    b"\xe2\x82\xac",
];

/// Each text with each of these contents, whole and cut, in a body that is good behind it or bad at once.
pub fn texts(versions: impl Iterator<Item = i16>, fields: fn(i16) -> Vec<Field>) -> Vec<Message> {
    let mut list = vec![];
    for version in versions {
        for field in fields(version).into_iter().filter(|field| field.of == Of::Text) {
            for contents in CONTENTS {
                let text = [&field.front, &carried(Form::Int16, contents.len() as u64)[..], contents].concat();
                list.push(Message { version, front: text[..text.len() - 1].to_vec(), zeros: 0 });
                list.push(Message { version, front: text.clone(), zeros: 40 });
                list.push(Message { version, front: [text.as_slice(), &[0xff; 40]].concat(), zeros: 0 });
            }
        }
    }
    list
}

/// A body of each version, cut behind every byte.
pub fn cuts(versions: impl Iterator<Item = i16>, body: impl Fn(i16) -> Vec<u8>) -> Vec<Message> {
    let mut list = vec![];
    for version in versions {
        let message = body(version);
        let cut = |length| Message { version, front: message[..length].to_vec(), zeros: 0 };
        list.extend((0..=message.len()).map(cut));
    }
    list
}

/// Each message of a list, asked in so many ways by turns.
pub fn asked(list: Vec<Message>, ways: u64, ask: impl Fn(u64, i16, Vec<u8>) -> Case + 'static) -> Section {
    Section::new(ways * list.len() as u64, move |index| {
        let Message { version, front, zeros } = &list[(index / ways) as usize];
        let mut message = front.clone();
        message.resize(front.len() + zeros, 0);
        ask(index, *version, message)
    })
}

/// The cells that a good body needs.
fn needs(call: &ReadBody, version: i16, message: &[u8]) -> Vec<usize> {
    let shown = (call.model)(version, false, message).expect("a good body");
    shown.tables.iter().map(Vec::len).collect()
}

/// A body of each version, and rooms for each table that are exact, a cell short, nothing, or a row more: all combinations.
pub fn rooms(call: &'static ReadBody, body: impl Fn(i16) -> Vec<u8> + 'static) -> Section {
    const WAYS: u64 = 4;
    let each = WAYS.pow(call.widths.len() as u32);
    Section::new(each * (call.last.unwrap_or(0) as u64 + 1), move |index| {
        let version = (index / each) as i16;
        let message = body(version);
        let rooms = needs(call, version, &message).into_iter().enumerate().map(|(rank, need)| {
            match index / WAYS.pow(rank as u32) % WAYS {
                0 => need,
                1 => need.saturating_sub(1),
                2 => need + call.widths[rank],
                _ => 0,
            }
        });
        Case::ReadBody { call, version, rooms: rooms.collect(), message }
    })
}

/// Turns of `tight`.
pub fn turns(call: &ReadBody) -> u64 {
    call.widths.len() as u64 + 2
}

/// A read with rooms that are exact, each of them in turn a cell short, or the largest.
pub fn tight(call: &'static ReadBody, version: i16, message: Vec<u8>, turn: u64) -> Case {
    let mut rooms = needs(call, version, &message);
    match turn as usize {
        rank if rank < rooms.len() => rooms[rank] = rooms[rank].saturating_sub(1),
        exact if exact == rooms.len() => {}
        _ => rooms.fill(MOST_CELLS),
    }
    Case::ReadBody { call, version, rooms, message }
}
