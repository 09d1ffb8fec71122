//! Frames: near-valid bytes and headers to write, all short strings of words, and which header there is.
pub mod ends;
pub mod examples;
pub mod stored;
pub mod written;

use super::exhaustive::{digits, strings, Ask, TELLING};
use super::reads;
use super::rng::Rng;
use super::wire::{carried, varied, Wire};
use super::writes::{self, Lending};
use super::Section;
use crate::calls::{ReadFrame, WriteFrame, HEADER_NUMBERS, READ_FRAMES, WRITE_FRAMES};
use crate::case::Case;
use crate::model::frames::{framed, Headers, TAG};
use crate::model::primitives::{Form, Null};
use crate::model::write::{Given, Own};
use std::slice::from_ref;

#[derive(Debug, Clone, Copy, PartialEq, Eq)]
pub enum Side {
    Request,
    Response,
}

pub const SIDES: [Side; 2] = [Side::Request, Side::Response];

impl Side {
    pub fn read(self) -> &'static ReadFrame {
        &READ_FRAMES[self as usize]
    }

    pub fn write(self) -> &'static WriteFrame {
        &WRITE_FRAMES[self as usize]
    }

    /// The first header number that has tags; the client name, of requests alone, is from 1 on.
    fn tagged(self) -> i64 {
        self.read().headers.last
    }
}

/// Every side with every header number that it has.
pub fn known() -> impl Iterator<Item = (Side, i64)> {
    SIDES.into_iter().flat_map(|side| {
        let Headers { first, last, .. } = side.read().headers;
        (first..=last).map(move |header| (side, header))
    })
}

/// Numbers that neither side has, and some that one of them has if its bits are cut.
const UNKNOWN: [i64; 16] = [
    -1,
    -2,
    3,
    4,
    127,
    -32_768,
    32_767,
    -32_769,
    32_768,
    65_536,
    65_537,
    -65_535,
    1 << 32,
    (1 << 32) + 1,
    i64::MIN,
    i64::MAX,
];

fn header(rng: &mut Rng, side: Side) -> i64 {
    match rng.below(16) {
        0 => rng.pick(&UNKNOWN),
        1 => rng.below(3) as i64,
        turn => side.read().headers.first + turn as i64 % 2,
    }
}

impl Wire<'_> {
    fn header(&mut self, side: Side, header: i64) {
        if side == Side::Request {
            (0..2).for_each(|_| self.int(2));
        }
        self.int(4);
        if side == Side::Request && header >= 1 {
            self.sized(Form::Int16, Null::Kept, true);
        }
        if header >= side.tagged() {
            self.tagged_fields();
        }
    }
}

/// What a size says that stands before so many bytes: mostly these.
fn said(rng: &mut Rng, length: usize) -> u64 {
    match rng.below(40) {
        0 => (length as u64).wrapping_sub(1),
        1 => length as u64 + 1,
        2 | 3 => rng.below(length + 1) as u64,
        4 => rng.pick(&ends::SIZES) as u64,
        _ => length as u64,
    }
}

/// A frame: a header of that number, in which fields may be strange, and any body.
pub fn frame_bytes(rng: &mut Rng, side: Side, header: i64) -> Vec<u8> {
    let mut wire = Wire::new(rng);
    wire.header(side, header);
    let header = wire.bytes;
    let length = rng.length();
    let contents = [header, rng.data(length)].concat();
    [carried(Form::Int32, said(rng, contents.len())), contents].concat()
}

/// A frame of one header number, damaged or not, mostly read with that one; after it another one, or nothing.
pub fn read(rng: &mut Rng) -> Case {
    let side = rng.pick(&SIDES);
    let made = header(rng, side);
    let at = if rng.one_in(4) { header(rng, side) } else { made };
    let frame = frame_bytes(rng, side, made);
    let mut message = varied(rng, frame);
    if rng.one_in(3) {
        message.extend(frame_bytes(rng, side, made));
    }
    roomed(rng, side, at, message)
}

/// With a room around what the tags need.
fn roomed(rng: &mut Rng, side: Side, header: i64, message: Vec<u8>) -> Case {
    let call = side.read();
    let need = match (call.model)(header.clamp(0, side.tagged()) as i16, &message) {
        Ok(shown) => shown.tables[0].len(),
        Err(_) => TAG * rng.below(3),
    };
    Case::ReadFrame { call, header, room: reads::room(rng, TAG, need), message }
}

/// A header and a body to write; one in three has a fault.
pub fn write(rng: &mut Rng) -> Case {
    let side = rng.pick(&SIDES);
    let call = side.write();
    let mut lending = Lending::default();
    let mut own = match side {
        Side::Request => vec![Own::Number(rng.number_of(2)), Own::Number(rng.number_of(2))],
        Side::Response => vec![],
    };
    own.push(Own::Number(rng.number_of(4)));
    if side == Side::Request {
        own.push(client(rng, &mut lending));
    }
    own.push(Own::Number(lending.tagged(rng)));
    let Lending { mut lent, tags } = lending;
    let mut tables = [tags];
    if rng.one_in(3) {
        (0..1 + rng.below(2)).for_each(|_| writes::fault(rng, &mut lent, &mut own, &mut tables));
    }
    let [tags] = tables;
    let (header, length) = (header(rng, side), rng.length());
    let body = rng.data(length);
    let need = need(side, header, &Given { lent: &lent, own: &own, tables: from_ref(&tags) }, &body);
    let room = writes::room(rng, need.unwrap_or(20));
    Case::WriteFrame { call, room, header, lent, own, tags, body }
}

fn client(rng: &mut Rng, lending: &mut Lending) -> Own {
    match rng.below(6) {
        0 => Own::Absent,
        1 => Own::Null,
        _ => {
            let [start, length] = lending.part(rng, true);
            Own::Part(start, length)
        }
    }
}

/// The bytes of the frame, where there is nothing that cannot be written.
fn need(side: Side, header: i64, given: &Given, body: &[u8]) -> Option<usize> {
    let written = (side.write().model)(header.clamp(0, side.tagged()) as i16, given);
    written.ok().map(|header| framed(&header, body).len())
}

/// Which header: mostly of an API that is here, at a version that it has.
pub fn number(rng: &mut Rng) -> Case {
    let call = &HEADER_NUMBERS[rng.below(2)];
    let key = if rng.one_in(4) { rng.number() } else { rng.pick(&[18, 18, 3, 1, 0, 2, 17, 19]) };
    let version = if rng.one_in(4) { rng.number() } else { rng.below(15) as i64 - 2 };
    Case::HeaderNumber { call, key, version }
}

/// Generated frames, each read as a request and as a response with every number from 0 to 3.
pub fn crossed(seed: u64, frames: u64) -> Section {
    const WAYS: u64 = 8;
    Section::new(WAYS * frames, move |index| {
        let mut rng = Rng::new(seed ^ 9, index / WAYS);
        let made = rng.pick(&SIDES);
        let header = made.read().headers.first + rng.below(2) as i64;
        let message = frame_bytes(&mut rng, made, header);
        let side = SIDES[(index / 4 % 2) as usize];
        roomed(&mut Rng::new(seed ^ 9, index), side, (index % 4) as i64, message)
    })
}

/// Generated frames, cut after each of their first bytes.
pub fn cut(seed: u64, frames: u64) -> Section {
    const LONGEST: u64 = 48;
    let known: Vec<(Side, i64)> = known().collect();
    Section::new(LONGEST * frames, move |index| {
        let frame = index / LONGEST;
        let mut rng = Rng::new(seed ^ 10, frame);
        let (side, header) = known[frame as usize % known.len()];
        let mut message = frame_bytes(&mut rng, side, header);
        message.truncate((index % LONGEST) as usize);
        roomed(&mut rng, side, header, message)
    })
}

/// Every string of up to four telling bytes: all of them too short, but for a size of 0.
pub fn sizes_alone() -> Section {
    strings(known().map(|(side, header)| Ask::Frame(side.read(), header)).collect(), TELLING.to_vec(), 0..=4)
}

/// Words that tell numbers, lengths, texts and tags apart.
const WORDS: [&[u8]; 8] =
    [&[0, 18, 0, 3], &[0, 0, 0, 7], &[255, 255], &[255, 254], &[0, 1, b'a'], &[0], &[1, 5, 1, b'A'], &[128]];

/// Every string of up to so many words as what is in a frame, with each header. The size is right, or one byte short, or two
/// where there are as many, and all bytes are lent.
pub fn words(most: u32) -> Section {
    const SHORT: u64 = 3;
    let letters = WORDS.len() as u64;
    let each: u64 = (0..=most).map(|length| letters.pow(length)).sum();
    let known: Vec<(Side, i64)> = known().collect();
    Section::new(SHORT * each * known.len() as u64, move |index| {
        let (short, rest) = ((index % SHORT) as usize, index / SHORT);
        let (side, header) = known[(rest / each) as usize];
        let chosen = digits(rest % each, letters, 0);
        let contents = chosen.into_iter().flat_map(|word| WORDS[word]).copied().collect::<Vec<u8>>();
        let size = contents.len().saturating_sub(short);
        let message = [carried(Form::Int32, size as u64), contents].concat();
        Ask::Frame(side.read(), header).of(message, index)
    })
}
