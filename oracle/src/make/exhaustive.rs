//! All strings of a kind, each given to every call of a list.
use super::Section;
use crate::calls::{
    Named, ReadBody, ReadFrame, FETCH_READ, METADATA_READ, PRIMITIVES, REQUEST_READ, RESPONSE_READS, TAGGED_FIELDS,
};
use crate::case::Case;
use crate::model::frames::TAG;
use std::ops::RangeInclusive;

/// Bytes that tell things apart: ends of counts and lengths, a letter, the first byte of a character.
pub const TELLING: [u8; 8] = [0x00, 0x01, 0x02, 0x7f, 0x80, 0xff, 0x61, 0xc3];

/// A call that takes any message.
#[derive(Clone, Copy)]
pub enum Ask {
    WellFormed,
    IsText,
    Primitive(&'static Named),
    Body(&'static ReadBody, i16),
    /// A lookup at a version.
    Host(i16),
    /// A frame with a header of that number.
    Frame(&'static ReadFrame, i64),
}

impl Ask {
    /// The case; rooms of nothing, a cut row, one, two and three rows take turns, and so do nodes.
    pub fn of(self, message: Vec<u8>, turn: u64) -> Case {
        match self {
            Ask::WellFormed => Case::WellFormed(message),
            Ask::IsText => Case::IsText(message),
            Ask::Primitive(call) => Case::Read { call, message },
            Ask::Host(version) => Case::Host { version, node: [0, 1, 2, -1, -2][(turn % 5) as usize], message },
            Ask::Body(call, version) => {
                let rooms = call.widths.iter().enumerate();
                let rooms = rooms.map(|(rank, width)| room(*width, turn / 5u64.pow(rank as u32))).collect();
                Case::ReadBody { call, version, rooms, message }
            }
            Ask::Frame(call, header) => Case::ReadFrame { call, header, room: room(TAG, turn), message },
        }
    }
}

fn room(width: usize, turn: u64) -> usize {
    match turn % 5 {
        0 => 2 * width,
        1 => width,
        2 => 3 * width + 1,
        3 => width - 1,
        _ => 0,
    }
}

/// Texts, primitives and tagged fields.
pub fn primitives() -> Vec<Ask> {
    let mut asks = vec![Ask::WellFormed, Ask::IsText, Ask::Body(&TAGGED_FIELDS, 0)];
    asks.extend(PRIMITIVES.iter().map(Ask::Primitive));
    asks
}

/// Those of them whose answer can depend on a third byte.
pub fn long_primitives() -> Vec<Ask> {
    let short = ["int8", "int16", "int32", "int64", "boolean", "array_count", "bytes", "nullable_bytes", "records"];
    primitives().into_iter().filter(|ask| !matches!(ask, Ask::Primitive(call) if short.contains(&call.read))).collect()
}

/// Bodies at every version, as a prefix and whole, and lookups.
pub fn bodies() -> Vec<Ask> {
    let calls = [&RESPONSE_READS[0], &RESPONSE_READS[1], &REQUEST_READ, &METADATA_READ, &FETCH_READ];
    let versions = |call: &ReadBody| 0..=call.last.unwrap_or(0);
    let mut asks: Vec<Ask> =
        calls.into_iter().flat_map(|call| versions(call).map(move |version| Ask::Body(call, version))).collect();
    asks.extend(versions(&METADATA_READ).map(Ask::Host));
    asks
}

/// Those of all whose answer can depend on a second byte: the others find two bytes too few, or look at none.
pub fn told_by_two() -> Vec<Ask> {
    let long = ["int32", "int64", "array_count", "bytes", "nullable_bytes", "records"];
    let depends = |ask: &Ask| match ask {
        Ask::Primitive(call) => !long.contains(&call.read),
        Ask::Body(call, version) => call.last.is_none() || call.name == "request_read" && *version == 3,
        Ask::Host(_) | Ask::Frame(..) => false,
        Ask::WellFormed | Ask::IsText => true,
    };
    all().into_iter().filter(depends).collect()
}

pub fn all() -> Vec<Ask> {
    [primitives(), bodies()].concat()
}

/// Every string of these lengths over an alphabet, for each call.
pub fn strings(asks: Vec<Ask>, alphabet: Vec<u8>, lengths: RangeInclusive<u32>) -> Section {
    let letters = alphabet.len() as u64;
    let each: u64 = lengths.clone().map(|length| letters.pow(length)).sum();
    let size = each * asks.len() as u64;
    Section::new(size, move |index| {
        let message = digits(index % each, letters, *lengths.start()).into_iter().map(|digit| alphabet[digit]);
        asks[(index / each) as usize].of(message.collect(), index)
    })
}

/// Every string of up to so many words of a list, behind each front.
pub fn of_words(list: Vec<(Ask, Vec<u8>)>, words: &'static [&'static [u8]], most: u32) -> Section {
    let letters = words.len() as u64;
    let each: u64 = (0..=most).map(|length| letters.pow(length)).sum();
    Section::new(each * list.len() as u64, move |index| {
        let (ask, front) = &list[(index / each) as usize];
        let chosen = digits(index % each, letters, 0);
        let message = chosen.iter().fold(front.clone(), |message, word| [&message, words[*word]].concat());
        ask.of(message, index)
    })
}

/// All strings of digits, from the shortest length on: the one of that index.
pub fn digits(index: u64, letters: u64, shortest: u32) -> Vec<usize> {
    let (mut rest, mut length) = (index, shortest);
    while rest >= letters.pow(length) {
        rest -= letters.pow(length);
        length += 1;
    }
    let mut digits = vec![0; length as usize];
    for digit in digits.iter_mut().rev() {
        *digit = (rest % letters) as usize;
        rest /= letters;
    }
    digits
}

pub fn any_byte() -> Vec<u8> {
    (0..=255).collect()
}
