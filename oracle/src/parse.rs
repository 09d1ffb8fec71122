//! A case from its line, as docs/ANSWERS.md spells it: the inverse of `Case::put`. A line that is no case gives nothing, and
//! neither does a version that 16 bits do not hold.
use crate::calls::{Kind, Named, ReadBody, ReadFrame, WriteBody, WriteFrame};
use crate::calls::{HEADER_NUMBERS, PRIMITIVES, READ_BODIES, READ_FRAMES, WRITE_BODIES, WRITE_FRAMES};
use crate::case::Case;
use crate::make::reads::MOST_CELLS;
use crate::make::writes::MOST_BYTES;
use crate::model::primitives::{Null, Primitive};
use crate::model::write::{Own, Value};
use std::str::Split;

type Words<'l> = Split<'l, char>;

impl Case {
    pub fn parse(line: &[u8]) -> Option<Case> {
        let mut words = std::str::from_utf8(line).ok()?.split(' ');
        let case = case(words.next()?, &mut words)?;
        words.next().is_none().then_some(case)
    }
}

fn case(name: &str, words: &mut Words) -> Option<Case> {
    match name {
        "well_formed" => return Some(Case::WellFormed(bytes(words.next()?)?)),
        "is_text" => return Some(Case::IsText(bytes(words.next()?)?)),
        "agree" => return Some(Case::Agree(cells(words.next()?)?)),
        "host" => return host(words),
        _ => {}
    }
    if let Some(call) = PRIMITIVES.iter().find(|call| call.read == name) {
        return Some(Case::Read { call, message: bytes(words.next()?)? });
    }
    if let Some(call) = PRIMITIVES.iter().find(|call| call.write == name) {
        return write(call, words);
    }
    if let Some(call) = READ_BODIES.iter().find(|call| call.name == name) {
        return read_body(call, words);
    }
    if let Some(case) = framed(name, words) {
        return Some(case);
    }
    let (call, kinds, tables) = WRITE_BODIES.iter().find(|(call, ..)| call.name == name)?;
    write_body(call, kinds, *tables, words)
}

/// Frames, and which header there is.
fn framed(name: &str, words: &mut Words) -> Option<Case> {
    if let Some(call) = READ_FRAMES.iter().find(|call| call.name == name) {
        return read_frame(call, words);
    }
    if let Some(call) = WRITE_FRAMES.iter().find(|call| call.name == name) {
        return write_frame(call, words);
    }
    let call = HEADER_NUMBERS.iter().find(|call| call.name == name)?;
    Some(Case::HeaderNumber { call, key: number(words.next()?)?, version: number(words.next()?)? })
}

fn host(words: &mut Words) -> Option<Case> {
    Some(Case::Host { version: version(words.next()?)?, node: number(words.next()?)?, message: bytes(words.next()?)? })
}

fn write(call: &'static Named, words: &mut Words) -> Option<Case> {
    Some(Case::Write { call, room: room(words.next()?, MOST_BYTES)?, value: value(call.primitive, words.next()?)? })
}

fn read_body(call: &'static ReadBody, words: &mut Words) -> Option<Case> {
    Some(Case::ReadBody {
        call,
        version: version_if(call.last, words)?,
        rooms: call.widths.iter().map(|_| room(words.next()?, MOST_CELLS)).collect::<Option<_>>()?,
        message: bytes(words.next()?)?,
    })
}

fn write_body(call: &'static WriteBody, kinds: &[Kind], tables: usize, words: &mut Words) -> Option<Case> {
    Some(Case::WriteBody {
        call,
        room: room(words.next()?, MOST_BYTES)?,
        version: version_if(call.last, words)?,
        lent: bytes(words.next()?)?,
        own: kinds.iter().map(|kind| own(*kind, words.next()?)).collect::<Option<_>>()?,
        tables: (0..tables).map(|_| cells(words.next()?)).collect::<Option<_>>()?,
    })
}

/// A header has any number that a cell holds.
fn read_frame(call: &'static ReadFrame, words: &mut Words) -> Option<Case> {
    Some(Case::ReadFrame {
        call,
        header: number(words.next()?)?,
        room: room(words.next()?, MOST_CELLS)?,
        message: bytes(words.next()?)?,
    })
}

fn write_frame(call: &'static WriteFrame, words: &mut Words) -> Option<Case> {
    Some(Case::WriteFrame {
        call,
        room: room(words.next()?, MOST_BYTES)?,
        header: number(words.next()?)?,
        lent: bytes(words.next()?)?,
        own: call.kinds.iter().map(|kind| own(*kind, words.next()?)).collect::<Option<_>>()?,
        tags: cells(words.next()?)?,
        body: bytes(words.next()?)?,
    })
}

/// A call without versions has no word for one.
fn version_if(last: Option<i16>, words: &mut Words) -> Option<i16> {
    match last {
        Some(_) => version(words.next()?),
        None => Some(0),
    }
}

fn version(word: &str) -> Option<i16> {
    number(word)?.try_into().ok()
}

/// What a primitive is given to be written.
fn value(primitive: Primitive, word: &str) -> Option<Value> {
    match primitive {
        Primitive::Count(_) | Primitive::Bytes(_, Null::Kept) | Primitive::Text(_, Null::Kept) if word == "null" => {
            Some(Value::Null)
        }
        Primitive::Bytes(..) | Primitive::Text(..) => bytes(word).map(Value::Contents),
        Primitive::Boolean => flag(word).map(|flag| Value::Number(flag.into())),
        _ => number(word).map(Value::Number),
    }
}

fn own(kind: Kind, word: &str) -> Option<Own> {
    match kind {
        Kind::Number => number(word).map(Own::Number),
        _ if word == "absent" => Some(Own::Absent),
        Kind::NumberOrUnset => number(word).map(Own::Number),
        Kind::PartOrUnset => part(word),
        Kind::FlagOrUnset => flag(word).map(Own::Flag),
        Kind::TextOrUnset if word == "null" => Some(Own::Null),
        Kind::TextOrUnset => part(word),
    }
}

/// Decimal digits, and nothing else.
fn digits(word: &str) -> Option<u64> {
    if word.bytes().all(|b| b.is_ascii_digit()) {
        word.parse().ok()
    } else {
        None
    }
}

/// NUMBER, as the cell that it is held in.
fn number(word: &str) -> Option<i64> {
    match word.strip_prefix('-') {
        None => digits(word).map(|n| n as i64),
        Some(word) => digits(word).and_then(|n| 0i64.checked_sub_unsigned(n)),
    }
}

fn room(word: &str, most: usize) -> Option<usize> {
    digits(word)?.try_into().ok().filter(|room| *room <= most)
}

fn flag(word: &str) -> Option<bool> {
    match word {
        "1" => Some(true),
        "0" => Some(false),
        _ => None,
    }
}

/// START:LENGTH.
fn part(word: &str) -> Option<Own> {
    let (start, length) = word.split_once(':')?;
    Some(Own::Part(digits(start)? as i64, digits(length)? as i64))
}

fn bytes(word: &str) -> Option<Vec<u8>> {
    pieces(word, MOST_BYTES, |bytes, piece| match piece.split_once('*') {
        Some((one, times)) => add_run(bytes, byte(one.as_bytes())?, times, MOST_BYTES),
        None => add_hexadecimal(bytes, piece),
    })
}

fn cells(word: &str) -> Option<Vec<i64>> {
    pieces(word, MOST_CELLS, |cells, piece| match piece.split_once('*') {
        Some((one, times)) => add_run(cells, number(one)?, times, MOST_CELLS),
        None => {
            cells.push(number(piece)?);
            Some(())
        }
    })
}

/// `-` for none, else pieces with `,` between them, which `add` puts one after another.
fn pieces<T>(word: &str, most: usize, add: impl Fn(&mut Vec<T>, &str) -> Option<()>) -> Option<Vec<T>> {
    let mut items = vec![];
    if word != "-" {
        word.split(',').try_for_each(|piece| add(&mut items, piece))?;
    }
    (items.len() <= most).then_some(items)
}

/// The same item, once at least, and at most as often as there may be items in all.
fn add_run<T: Copy>(items: &mut Vec<T>, item: T, times: &str, most: usize) -> Option<()> {
    let times = room(times, most).filter(|times| *times > 0)?;
    items.resize(items.len() + times, item);
    Some(())
}

fn add_hexadecimal(bytes: &mut Vec<u8>, piece: &str) -> Option<()> {
    if piece.is_empty() {
        return None;
    }
    piece.as_bytes().chunks(2).try_for_each(|two| {
        bytes.push(byte(two)?);
        Some(())
    })
}

/// Two hexadecimal digits, no capitals.
fn byte(two: &[u8]) -> Option<u8> {
    let digit = |b: u8| b"0123456789abcdef".iter().position(|d| *d == b);
    match two {
        [high, low] => Some((16 * digit(*high)? + digit(*low)?) as u8),
        _ => None,
    }
}
