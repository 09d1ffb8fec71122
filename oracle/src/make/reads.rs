//! Reads of near-valid bytes, with rooms around what they need.
use super::rng::Rng;
use super::wire::{varied, Wire};
use crate::calls::{ReadBody, PRIMITIVES, REQUEST_READ, RESPONSE_READS, TAGGED_FIELDS};
use crate::case::Case;
use crate::model::api_versions;

/// The most cells that a table is lent with.
pub const MOST_CELLS: usize = 65_536;

/// A version that a message with this last one does not have.
pub fn outside(rng: &mut Rng, last: i16) -> i16 {
    rng.pick(&[-1, -32_768, -2, last + 1, last + 2, 32_767])
}

pub fn primitive(rng: &mut Rng) -> Case {
    let call = &PRIMITIVES[rng.below(PRIMITIVES.len())];
    let mut wire = Wire::new(rng);
    wire.primitive(call.primitive);
    let message = wire.bytes;
    Case::Read { call, message: varied(rng, message) }
}

pub fn tagged_fields(rng: &mut Rng) -> Case {
    let mut wire = Wire::new(rng);
    wire.tagged_fields();
    let message = wire.bytes;
    let message = varied(rng, message);
    body(rng, &TAGGED_FIELDS, 0, message)
}

fn version(rng: &mut Rng) -> i16 {
    if rng.one_in(12) {
        outside(rng, api_versions::LAST)
    } else {
        rng.pick(&[0, 1, 2, 3, 3, 3])
    }
}

/// A body of one version, mostly read at that one.
pub fn response(rng: &mut Rng) -> Case {
    let made = version(rng);
    let at = if rng.one_in(4) { version(rng) } else { made };
    let message = response_bytes(rng, made);
    let message = varied(rng, message);
    let call = &RESPONSE_READS[rng.below(3)];
    body(rng, call, at, message)
}

pub fn request(rng: &mut Rng) -> Case {
    let at = version(rng);
    let made = rng.pick(&[0, 3, 3, 3, 3, 3, 3, 3]);
    let message = request_bytes(rng, made);
    let message = varied(rng, message);
    body(rng, &REQUEST_READ, at, message)
}

pub fn response_bytes(rng: &mut Rng, version: i16) -> Vec<u8> {
    let mut wire = Wire::new(rng);
    wire.response(version);
    wire.bytes
}

pub fn request_bytes(rng: &mut Rng, version: i16) -> Vec<u8> {
    let mut wire = Wire::new(rng);
    wire.request(version);
    wire.bytes
}

/// A read with rooms: most fit, some are exact, short by a row or a cell, or nothing.
pub fn body(rng: &mut Rng, call: &'static ReadBody, version: i16, message: Vec<u8>) -> Case {
    let shown = (call.model)(version.clamp(0, call.last.unwrap_or(0)), false, &message);
    let needs: Vec<usize> = match shown {
        Ok(shown) => shown.tables.iter().map(Vec::len).collect(),
        Err(_) => call.widths.iter().map(|width| width * rng.below(3)).collect(),
    };
    let rooms = call.widths.iter().zip(needs).map(|(width, need)| room(rng, *width, need)).collect();
    Case::ReadBody { call, version, rooms, message }
}

pub fn room(rng: &mut Rng, width: usize, need: usize) -> usize {
    let room = match rng.below(24) {
        0 => 0,
        1 => need.saturating_sub(1),
        2 => need.saturating_sub(width),
        3..=8 => need,
        9 | 10 => need + width - 1,
        11 => need + width,
        _ => need + rng.below(10),
    };
    room.min(MOST_CELLS)
}
