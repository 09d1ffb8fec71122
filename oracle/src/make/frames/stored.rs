//! Frames for the stored list: the examples, each kind of end, and some of those that look random.
use super::ends::{framed, sized};
use super::written::good;
use super::{examples, known, read, write, Side};
use crate::case::Case;
use crate::judge::judge;
use crate::make::rng::Rng;
use crate::model::LIMIT;
use std::collections::{BTreeMap, BTreeSet};

/// Each line once.
pub fn stored() -> Vec<Case> {
    let examples = examples::all().into_iter().map(|(case, _)| case).collect();
    let list: Vec<Case> =
        [examples, sizes(), cuts(), pairs(), overruns(), rooms(), others()].into_iter().flatten().collect();
    let mut seen = BTreeSet::new();
    list.into_iter().filter(|case| seen.insert(line(case))).collect()
}

fn line(case: &Case) -> Vec<u8> {
    let mut line = vec![];
    case.put(&mut line);
    line
}

fn ask(side: Side, header: i64, room: usize, message: Vec<u8>) -> Case {
    Case::ReadFrame { call: side.read(), header, room, message }
}

/// Six sizes, each with too few bytes, as many, and more. For a negative one, and for one that no lent bytes reach, any few.
fn sizes() -> Vec<Case> {
    const MOST: i64 = LIMIT as i64;
    let tails = [
        (-1, [0, 1, 20]),
        (0, [0, 1, 20]),
        (3, [2, 3, 20]),
        (MOST, [LIMIT - 1, LIMIT, LIMIT + 20]),
        (MOST + 1, [LIMIT, LIMIT + 1, LIMIT + 20]),
        ((1 << 31) - 1, [0, 20, LIMIT]),
    ];
    let mut list = vec![];
    for (side, header) in [(Side::Request, 2), (Side::Response, 1)] {
        for (size, tails) in tails {
            list.extend(tails.map(|tail| ask(side, header, 3, sized(size, &vec![0; tail]))));
        }
    }
    list
}

/// A header with a client name of one byte and one tag, where the number has them, and a body of one byte.
fn contents(side: Side, header: i64) -> Vec<u8> {
    let front: &[u8] = if side == Side::Request { &[0, 18, 0, 3, 0, 0, 0, 7, 0, 1, b'g'] } else { &[0, 0, 0, 7] };
    let tags: &[u8] = if header >= side.tagged() { &[1, 5, 1, b'A'] } else { &[] };
    [front, tags, &[0xff]].concat()
}

/// A frame of each header, cut after every byte.
fn cuts() -> Vec<Case> {
    let mut list = vec![];
    for (side, header) in known() {
        let frame = framed(&contents(side, header));
        list.extend((0..=frame.len()).map(|length| ask(side, header, 3, frame[..length].to_vec())));
    }
    list
}

/// Two frames in one buffer: the second good, or with a size that is refused and nothing after it.
fn pairs() -> Vec<Case> {
    let mut list = vec![];
    for (side, header) in known() {
        let first = framed(&contents(side, header));
        for second in [first.clone(), sized(-1, &[])] {
            list.push(ask(side, header, 3, [first.clone(), second].concat()));
        }
    }
    list
}

/// Headers that their frames cut, while the rest of them is lent.
fn overruns() -> Vec<Case> {
    let sizes: [(Side, i64, &[i64]); 4] = [
        (Side::Request, 1, &[1, 3, 7, 9, 10]),
        (Side::Request, 2, &[11, 12, 13, 14]),
        (Side::Response, 0, &[3]),
        (Side::Response, 1, &[2, 4, 5, 6, 7]),
    ];
    let mut list = vec![];
    for (side, header, sizes) in sizes {
        list.extend(sizes.iter().map(|size| ask(side, header, 3, sized(*size, &contents(side, header)))));
    }
    list
}

/// Rooms: for one tag nothing and a cell short, for what is written a byte short, just enough, and a byte more.
fn rooms() -> Vec<Case> {
    let mut list = vec![];
    for (side, header) in known() {
        if header == side.tagged() {
            list.extend([0, 2].map(|room| ask(side, header, room, framed(&contents(side, header)))));
        }
        let frame = good(side);
        let need = frame.need(header).expect("a good one");
        list.extend([need - 1, need, need + 1].map(|room| frame.case(header, room)));
    }
    list
}

/// Of each call and each number but 1 some that look random, with short lines.
fn others() -> Vec<Case> {
    const LONGEST: usize = 300;
    const EACH: usize = 2;
    let mut kinds: BTreeMap<(&str, u8), Vec<Case>> = BTreeMap::new();
    for index in 0..20_000 {
        let rng = &mut Rng::new(14, index);
        let case = if rng.one_in(2) { read(rng) } else { write(rng) };
        let number = judge(&case).number();
        let kind = kinds.entry((case.name(), number)).or_default();
        if number != 1 && kind.len() < EACH && line(&case).len() <= LONGEST {
            kind.push(case);
        }
    }
    kinds.into_values().flatten().collect()
}
