//! Frames to write: the ends of numbers, client names, counts and ranges of tags, rooms and sizes; and pairs of faults.
use super::{known, need, Side, SIDES, UNKNOWN};
use crate::case::Case;
use crate::make::writes::MOST_BYTES;
use crate::make::written::{room, ROOMS};
use crate::make::Section;
use crate::model::write::{Given, Own};
use crate::model::LIMIT;
use std::slice::from_ref;

const LONGEST: i64 = 32_767;

/// What a frame is written from.
#[derive(Clone)]
pub struct Frame {
    pub side: Side,
    pub own: Vec<Own>,
    pub tags: Vec<i64>,
    pub lent: Vec<u8>,
    pub body: Vec<u8>,
}

/// Ranks of own words: the numbers, the client name of a request, and the count of tags.
const KEY: usize = 0;
const VERSION: usize = 1;
const CLIENT: usize = 3;

impl Frame {
    /// The rank of the correlation number.
    fn correlation(&self) -> usize {
        self.own.len() - if self.side == Side::Request { 3 } else { 2 }
    }

    fn count(&mut self) -> &mut Own {
        self.own.last_mut().expect("the count of tags")
    }

    /// The bytes that are written, where nothing is wrong.
    pub fn need(&self, header: i64) -> Option<usize> {
        let given = Given { lent: &self.lent, own: &self.own, tables: from_ref(&self.tags) };
        need(self.side, header, &given, &self.body)
    }

    pub fn case(&self, header: i64, room: usize) -> Case {
        let Frame { side, own, tags, lent, body } = self.clone();
        Case::WriteFrame { call: side.write(), room, header, lent, own, tags, body }
    }

    /// With one of the rooms around what is needed.
    fn turned(&self, header: i64, turn: u64) -> Case {
        self.case(header, room(turn, self.need(header).unwrap_or(20)))
    }
}

/// A client name of two bytes, two tags, and a body of three bytes.
pub fn good(side: Side) -> Frame {
    let numbers = |numbers: &[i64]| numbers.iter().map(|n| Own::Number(*n)).collect::<Vec<Own>>();
    let own = match side {
        Side::Request => [numbers(&[18, 3, 7]), vec![Own::Part(0, 2), Own::Number(2)]].concat(),
        Side::Response => numbers(&[7, 2]),
    };
    Frame { side, own, tags: vec![5, 2, 1, 300, 0, 3], lent: b"meA".to_vec(), body: vec![0, 0xab, 0xff] }
}

/// Lent letters enough for a name that is too long, and a last byte that is ill-formed.
fn long_lent() -> Vec<u8> {
    let mut lent = vec![b'n'; LONGEST as usize + 1];
    lent.push(0xff);
    lent
}

/// Ends of Int16 and Int32, and numbers that fit if their bits are cut.
const NUMBERS: [i64; 18] = [
    0,
    1,
    -1,
    127,
    128,
    LONGEST,
    LONGEST + 1,
    -LONGEST - 1,
    -LONGEST - 2,
    65_536 + 18,
    (1 << 31) - 1,
    1 << 31,
    -(1 << 31),
    -(1 << 31) - 1,
    (1 << 32) + 7,
    1 << 62,
    i64::MAX,
    i64::MIN,
];

/// Each number of the header.
fn numbered(side: Side) -> Vec<Frame> {
    let words = 0..=good(side).correlation();
    let of_word = |word: usize| {
        NUMBERS.map(|number| {
            let mut frame = good(side);
            frame.own[word] = Own::Number(number);
            frame
        })
    };
    words.flat_map(of_word).collect()
}

const CELLS: [i64; 8] = [0, 1, 3, 4, -1, i64::MIN, i64::MAX, i64::MAX - 2];

/// Ranges inside three lent bytes, at their end and beyond.
fn ranges() -> impl Iterator<Item = [i64; 2]> {
    CELLS.into_iter().flat_map(|start| CELLS.map(|length| [start, length]))
}

fn with_client(client: Own) -> Frame {
    let mut frame = good(Side::Request);
    frame.own[CLIENT] = client;
    frame
}

/// Client names: none, of each length, well-formed or ill-formed at the first byte, after it or at the end, and of each range.
fn clients() -> Vec<Frame> {
    let mut list = vec![with_client(Own::Null), with_client(Own::Absent)];
    list.extend(ranges().map(|[start, length]| with_client(Own::Part(start, length))));
    for length in [0, 1, 2, 127, 128, 4_500, LONGEST - 1, LONGEST, LONGEST + 1, LONGEST + 2] {
        for bad in [length + 1, length - 1, 1, 0] {
            let mut lent = vec![b'n'; LONGEST as usize + 3];
            lent.get_mut(bad.max(0) as usize).into_iter().for_each(|byte| *byte = 0xff);
            list.push(Frame { lent, ..with_client(Own::Part(0, length)) });
        }
    }
    list.push(Frame { lent: "\u{e9}\u{20ac}\u{1f600}".into(), ..with_client(Own::Part(0, 9)) });
    list.push(Frame { lent: "\u{e9}\u{20ac}\u{1f600}".into(), ..with_client(Own::Part(0, 8)) });
    list
}

/// Counts of tags over tables of no row to two rows; a cut row is no row. Ranges of data, of either of two tags; and any tag.
fn tagged(side: Side) -> Vec<Frame> {
    const COUNTS: [i64; 12] =
        [-1, 0, 1, 2, 3, -2, i64::MIN, i64::MAX, 1 << 32, (1 << 32) + 1, (1 << 32) + 2, -(1 << 32)];
    let of_tags = |count: i64, tags: &[i64]| {
        let mut frame = Frame { tags: tags.to_vec(), ..good(side) };
        *frame.count() = Own::Number(count);
        frame
    };
    let mut list = vec![];
    for count in COUNTS {
        let rows = good(side).tags;
        list.extend([0, 1, 2, 3, 5, 6].map(|cells| of_tags(count, &rows[..cells])));
        list.push(of_tags(count, &[5, 0, 1, 5, 0, 1, 9]));
    }
    for [start, length] in ranges() {
        list.push(of_tags(2, &[5, start, length, 5, 0, 3]));
        list.push(of_tags(2, &[5, 0, 3, 5, start, length]));
    }
    list.extend([0, 127, 128, 16_383, 16_384, -1, i64::MIN, i64::MAX].map(|tag| of_tags(1, &[tag, 1, 2])));
    list
}

/// Bodies of some lengths; nothing is wrong with any.
fn bodies(side: Side) -> Vec<Frame> {
    [0, 1, 2, 8, 127, 128, 255, 256, 65_535, 65_536]
        .map(|length| Frame { body: vec![0xc0; length], ..good(side) })
        .to_vec()
}

fn small() -> Vec<Frame> {
    let each = SIDES.into_iter().flat_map(|side| [numbered(side), tagged(side), bodies(side)].concat());
    each.chain(clients()).collect()
}

/// Each of these with every header from -1 to 3, and in every room.
pub fn ends() -> Section {
    const HEADERS: u64 = 5;
    let list = small();
    Section::new(list.len() as u64 * HEADERS * ROOMS, move |index| {
        let (turn, rest) = (index % ROOMS, index / ROOMS);
        list[(rest / HEADERS) as usize].turned((rest % HEADERS) as i64 - 1, turn)
    })
}

/// Good ones in every room up to two bytes more than are needed, with every header.
pub fn rooms() -> Section {
    let mut list = vec![];
    for (side, header) in known() {
        let need = good(side).need(header).expect("a good one");
        list.extend((0..=need + 2).map(|room| (side, header, room)));
    }
    for header in UNKNOWN {
        list.extend(SIDES.into_iter().flat_map(|side| [0, 20, 60].map(|room| (side, header, room))));
    }
    Section::listed(list, |(side, header, room)| good(*side).case(*header, *room))
}

/// A fault, by what it changes: an own word, the count of tags, a cell of a tag, or the body.
#[derive(Clone, Copy)]
enum Fault {
    Word(usize, Own),
    Count(i64),
    Cell(usize, i64),
    /// Header and body together over the limit.
    Large,
}

impl Fault {
    fn plant(self, frame: &mut Frame) {
        match self {
            Fault::Word(word, own) => frame.own[word] = own,
            Fault::Count(count) => *frame.count() = Own::Number(count),
            Fault::Cell(cell, number) => frame.tags[cell] = number,
            Fault::Large => frame.body = vec![0; LIMIT],
        }
    }
}

/// Numbers that are too wide; names that are too long, ill-formed, both, and outside; counts, ranges, and a large body.
fn faults(side: Side) -> Vec<Fault> {
    let number = |word: usize, n: i64| Fault::Word(word, Own::Number(n));
    let mut list = vec![number(good(side).correlation(), 1 << 31), number(good(side).correlation(), -(1 << 31) - 1)];
    if side == Side::Request {
        list.extend([number(KEY, LONGEST + 1), number(VERSION, -LONGEST - 2)]);
        let names = [[0, LONGEST + 1], [LONGEST + 1, 1], [1, LONGEST + 1], [0, LONGEST + 3]];
        list.extend(names.map(|[start, length]| Fault::Word(CLIENT, Own::Part(start, length))));
    }
    list.extend([-1, 3].map(Fault::Count));
    list.extend([(1, -1), (5, LONGEST + 3)].map(|(cell, n)| Fault::Cell(cell, n)));
    list.push(Fault::Large);
    list
}

/// Which of two faults is given, and each fault alone, with every header from -1 to 3; rooms take turns.
pub fn pairs() -> Section {
    let mut list = vec![];
    for side in SIDES {
        let faults = faults(side);
        for (which, first) in faults.iter().enumerate() {
            for second in &faults[which..] {
                list.extend((-1..=3).map(|header| (side, *first, *second, header)));
            }
        }
    }
    Section::new(list.len() as u64, move |index| {
        let (side, first, second, header) = list[index as usize];
        let mut frame = Frame { lent: long_lent(), ..good(side) };
        first.plant(&mut frame);
        second.plant(&mut frame);
        frame.turned(header, index % ROOMS)
    })
}

/// Header and body together: a byte below the limit, at it, and over it, also by the four bytes of the size.
const TOGETHER: [usize; 6] = [LIMIT - 5, LIMIT - 1, LIMIT, LIMIT + 1, LIMIT + 3, LIMIT + 4];

/// A body that makes header and body together as large; the header's bytes are those of that number.
pub fn filled(side: Side, header: i64, together: usize) -> Frame {
    let own = Frame { body: vec![], ..good(side) }.need(header).expect("a good one") - 4;
    Frame { body: vec![b'b'; together - own], ..good(side) }
}

/// One tag of data that makes header and body together as large, with a body of so many bytes.
fn tag_filled(side: Side, together: usize, body: usize) -> Frame {
    let mut frame = Frame { tags: vec![5, 0, 100_000], lent: vec![b't'; together], body: vec![9; body], ..good(side) };
    *frame.count() = Own::Number(1);
    // 100,000 has as many bytes as a length as any number near the limit.
    let rest = frame.need(side.tagged()).expect("a good one") - 4 - 100_000;
    frame.tags[2] = (together - rest) as i64;
    frame
}

fn large() -> Vec<(Frame, i64)> {
    let mut list = vec![];
    for (side, header) in known() {
        list.extend(TOGETHER.map(|together| (filled(side, header, together), header)));
        for length in [LIMIT - 4, LIMIT, LIMIT + 1, MOST_BYTES] {
            list.push((Frame { body: vec![0; length], ..good(side) }, header));
        }
        for together in TOGETHER {
            list.extend([0, 1, 4].map(|body| (tag_filled(side, together, body), header)));
        }
        let count = |count: i64| {
            let mut frame = Frame { tags: vec![0; 65_536], ..good(side) };
            *frame.count() = Own::Number(count);
            (frame, header)
        };
        list.extend([21_845, 21_846].map(count));
    }
    list
}

/// Large ones in every room.
pub fn sizes() -> Section {
    let list = large();
    Section::new(list.len() as u64 * ROOMS, move |index| {
        let (frame, header) = &list[(index / ROOMS) as usize];
        frame.turned(*header, index % ROOMS)
    })
}
