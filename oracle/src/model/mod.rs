//! The rules of docs/RULES.md as a plain reader and writer, written from the page and from nothing else. They give what the
//! Rust has no word for: numbers, places, needs, what a refusal speaks of, starts and rows.
pub mod agreement;
pub mod api_versions;
pub mod fetch;
pub mod frames;
pub mod metadata;
pub mod names;
pub mod primitives;
pub mod text;
pub mod write;

use crate::line::{Lent, Refusal, Word};

/// The most bytes that a message or a written body has.
pub const LIMIT: usize = 1_048_576;

/// What an accepted read shows: own words, rows of each table, bytes used.
#[derive(Debug, Clone, PartialEq, Eq)]
pub struct Shown<'a> {
    pub used: usize,
    pub own: Vec<Word<'a>>,
    pub tables: Vec<Vec<i64>>,
}

/// 1: a call with versions has those from 0 to `last`.
pub fn judge_version(message: u8, last: i16, version: i16) -> Result<(), Refusal> {
    if (0..=last).contains(&version) {
        Ok(())
    } else {
        Err(Refusal::at(message, 1, 0))
    }
}

/// 2, of a message and of what would be written.
fn judge_size(message: u8, size: usize) -> Result<(), Refusal> {
    if size <= LIMIT {
        Ok(())
    } else {
        Err(Refusal::at(message, 2, 0))
    }
}

/// 9: a whole read has used every byte.
fn judge_rest(message: u8, used: usize, size: usize) -> Result<(), Refusal> {
    if used < size {
        Err(Refusal::at(message, 9, used))
    } else {
        Ok(())
    }
}

/// 10 for the first table that has fewer rows than the value; a cut row is no row.
fn judge_rooms(message: u8, shown: &Shown, widths: &[usize], rooms: &[usize]) -> Result<(), Refusal> {
    for ((cells, width), room) in shown.tables.iter().zip(widths).zip(rooms) {
        let rows = cells.len() / width;
        if room / width < rows {
            return Err(Refusal::no_room(message, rows));
        }
    }
    Ok(())
}

/// The order of refusals on reading: 1, 2, what the bytes gave, 9, 10.
pub fn in_order<'s, 'a>(
    message: u8,
    version: Result<(), Refusal>,
    size: usize,
    bytes: &'s Result<Shown<'a>, Refusal>,
    whole: bool,
    widths: &[usize],
    rooms: &[usize],
) -> Result<&'s Shown<'a>, Refusal> {
    version?;
    judge_size(message, size)?;
    let shown = bytes.as_ref().map_err(|no| *no)?;
    if whole {
        judge_rest(message, shown.used, size)?;
    }
    judge_rooms(message, shown, widths, rooms)?;
    Ok(shown)
}

/// Lent tables behind a read: the value's rows at the front, or nothing where it was refused.
pub fn laid(rooms: &[usize], fronts: Option<Vec<Vec<i64>>>) -> Vec<Lent> {
    let fronts = fronts.unwrap_or_else(|| vec![vec![]; rooms.len()]);
    rooms.iter().zip(fronts).map(|(room, front)| Lent::Table { room: *room, front }).collect()
}

/// The reply to a write that has come as far as its bytes, and the output behind it: 2, then 10, then the bytes at the front.
pub fn stored<'a>(message: u8, made: Result<&[u8], Refusal>, room: usize) -> (Result<Vec<Word<'a>>, Refusal>, Lent) {
    let limited = made.and_then(|bytes| {
        judge_size(message, bytes.len())?;
        Ok(bytes)
    });
    output(message, limited, room)
}

/// 10, then the bytes at the front.
fn output<'a>(message: u8, made: Result<&[u8], Refusal>, room: usize) -> (Result<Vec<Word<'a>>, Refusal>, Lent) {
    match made {
        Ok(bytes) if room < bytes.len() => {
            (Err(Refusal::no_room(message, bytes.len())), Lent::Output { room, front: vec![] })
        }
        Ok(bytes) => (Ok(vec![Word::Number(bytes.len() as i128)]), Lent::Output { room, front: bytes.to_vec() }),
        Err(no) => (Err(no), Lent::Output { room, front: vec![] }),
    }
}
