//! Writes: values that can be written, and values with a fault in them.
use super::reads::outside;
use super::rng::Rng;
use super::wire::{damage, BOUNDARIES};
use crate::calls::{WriteBody, PRIMITIVES, REQUEST_WRITE, RESPONSE_WRITE, WRITE_TAGGED_FIELDS};
use crate::case::Case;
use crate::model::primitives::{Null, Primitive};
use crate::model::write::{self, Given, Own, Value};

/// The most bytes that an output is lent with.
pub const MOST_BYTES: usize = 1_048_640;

pub fn primitive(rng: &mut Rng) -> Case {
    let call = &PRIMITIVES[rng.below(PRIMITIVES.len())];
    let value = value(rng, call.primitive);
    let need = write::write(call.primitive, &value).map_or(0, |bytes| bytes.len());
    Case::Write { call, room: room(rng, need), value }
}

fn value(rng: &mut Rng, primitive: Primitive) -> Value {
    match primitive {
        Primitive::Int(bytes) if rng.one_in(2) => Value::Number(rng.number_of(bytes)),
        Primitive::Boolean => Value::Number(rng.below(2) as i64),
        Primitive::Count(_) | Primitive::Bytes(_, Null::Kept) | Primitive::Text(_, Null::Kept) if rng.one_in(6) => {
            Value::Null
        }
        Primitive::Count(_) if rng.one_in(2) => Value::Number(rng.pick(&BOUNDARIES) as i64),
        Primitive::Bytes(..) | Primitive::Text(..) => {
            let length = rng.length();
            let mut text = rng.text(length);
            if rng.one_in(4) {
                damage(rng, &mut text);
            }
            Value::Contents(text)
        }
        _ => Value::Number(rng.number()),
    }
}

pub fn room(rng: &mut Rng, need: usize) -> usize {
    let room = match rng.below(16) {
        0 => 0,
        1 => need.saturating_sub(1),
        2 => rng.below(need + 1),
        3..=6 => need,
        7 => need + 1,
        _ => need + rng.below(12),
    };
    room.min(MOST_BYTES)
}

/// Bytes to lend, and rows of tags whose data are parts of them.
#[derive(Default)]
pub struct Lending {
    pub lent: Vec<u8>,
    pub tags: Vec<i64>,
}

impl Lending {
    /// A part: bytes of its own, or some that are there already.
    pub fn part(&mut self, rng: &mut Rng, is_text: bool) -> [i64; 2] {
        if !is_text && rng.one_in(4) {
            let start = rng.below(self.lent.len() + 1);
            return [start as i64, rng.below((self.lent.len() - start).min(2000) + 1) as i64];
        }
        let length = rng.length();
        let contents = if is_text { rng.text(length) } else { rng.data(length) };
        let start = self.lent.len();
        self.lent.extend(&contents);
        [start as i64, contents.len() as i64]
    }

    /// Rows of tags, and their count: now and then unset.
    pub fn tagged(&mut self, rng: &mut Rng) -> i64 {
        if rng.one_in(4) {
            return -1;
        }
        let count = if rng.one_in(2) { 0 } else { rng.below(4) };
        for _ in 0..count {
            let tag = rng.number();
            let [start, length] = self.part(rng, false);
            self.tags.extend([tag, start, length]);
        }
        count as i64
    }
}

pub fn tagged_fields(rng: &mut Rng) -> Case {
    let mut lending = Lending::default();
    let count = lending.tagged(rng);
    finished(rng, &WRITE_TAGGED_FIELDS, lending.lent, vec![Own::Number(count)], vec![lending.tags])
}

pub fn response(rng: &mut Rng) -> Case {
    let mut lending = Lending::default();
    let count = match rng.below(40) {
        0 => 126 + rng.below(4),
        _ => rng.below(4),
    };
    let mut items = vec![];
    for _ in 0..count {
        let tags = lending.tagged(rng);
        items.extend([rng.number_of(2), rng.number_of(2), rng.number_of(2), tags]);
    }
    let throttle = if rng.one_in(3) { Own::Absent } else { Own::Number(rng.number_of(4)) };
    let tags = lending.tagged(rng);
    let own = vec![Own::Number(rng.number_of(2)), Own::Number(count as i64), throttle, Own::Number(tags)];
    finished(rng, &RESPONSE_WRITE, lending.lent, own, vec![items, lending.tags])
}

pub fn request(rng: &mut Rng) -> Case {
    let mut lending = Lending::default();
    let mut text = |rng: &mut Rng| {
        if rng.one_in(4) {
            return Own::Absent;
        }
        let [start, length] = lending.part(rng, true);
        Own::Part(start, length)
    };
    let texts = [text(rng), text(rng)];
    let tags = lending.tagged(rng);
    let own = vec![texts[0], texts[1], Own::Number(tags)];
    finished(rng, &REQUEST_WRITE, lending.lent, own, vec![lending.tags])
}

/// A version and a room; one value in three gets a fault.
pub fn finished(
    rng: &mut Rng,
    call: &'static WriteBody,
    mut lent: Vec<u8>,
    mut own: Vec<Own>,
    mut tables: Vec<Vec<i64>>,
) -> Case {
    if rng.one_in(3) {
        (0..1 + rng.below(2)).for_each(|_| fault(rng, &mut lent, &mut own, &mut tables));
    }
    let version = match call.last {
        None => 0,
        Some(last) if rng.one_in(12) => outside(rng, last),
        // The last version has the most fields, so it is taken as often as all others.
        Some(last) => rng.below(2 * last as usize).min(last as usize) as i16,
    };
    let given = Given { lent: &lent, own: &own, tables: &tables };
    let made = (call.model)(version.clamp(0, call.last.unwrap_or(0)), &given);
    let need = made.map_or_else(|_| rng.below(20), |bytes| bytes.len());
    Case::WriteBody { call, room: room(rng, need), version, lent, own, tables }
}

/// A cell, an own word, a byte, or the end of a table is no longer what it was.
pub fn fault(rng: &mut Rng, lent: &mut Vec<u8>, own: &mut [Own], tables: &mut [Vec<i64>]) {
    let table = rng.below(tables.len());
    match rng.below(6) {
        0 => damage(rng, lent),
        1 => {
            let which = rng.below(own.len());
            own[which] = match own[which] {
                Own::Part(start, length) if rng.one_in(2) => Own::Part(strange(rng, start), length),
                Own::Part(start, length) => Own::Part(start, strange(rng, length)),
                Own::Number(n) => Own::Number(strange(rng, n)),
                Own::Flag(flag) => Own::Flag(!flag),
                unset => unset,
            };
        }
        2 => {
            let keep = rng.below(tables[table].len() + 1);
            tables[table].truncate(keep);
        }
        3 => (0..1 + rng.below(4)).for_each(|_| tables[table].push(rng.number())),
        _ if tables[table].is_empty() => {}
        _ => {
            let which = rng.below(tables[table].len());
            tables[table][which] = strange(rng, tables[table][which]);
        }
    }
}

/// One up or down, or at an end of some width.
fn strange(rng: &mut Rng, cell: i64) -> i64 {
    match rng.below(5) {
        0 => cell.wrapping_add(1),
        1 => cell.wrapping_sub(1),
        2 => rng.pick(&[-1, -2, 0, 32_767, 32_768, -32_768, -32_769, 70_000, 1 << 31, (1 << 31) - 1, -(1 << 31) - 1]),
        3 => rng.pick(&[i64::MIN, i64::MAX, i64::MIN + 1, 1 << 32, 1 << 62]),
        _ => rng.number(),
    }
}
