//! Fetch requests to write: values, some with a fault, and the ends of numbers, counts, ranges, names and sizes.
use crate::calls::FETCH_REQUEST_WRITE;
use crate::case::Case;
use crate::make::boundaries::SIZES;
use crate::make::rng::Rng;
use crate::make::writes::{finished, Lending};
use crate::make::written::{room, ROOMS};
use crate::make::Section;
use crate::model::fetch::{write_request, LAST};
use crate::model::write::{Given, Own};
use crate::model::LIMIT;

const VERSIONS: [i16; 7] = [-1, 0, 1, 2, 3, 4, 5];
const LONGEST: i64 = 32_767;
/// One more than an Int32 holds, at both ends.
const ABOVE: i64 = 1 << 31;
const BELOW: i64 = -(1 << 31) - 1;

pub fn request(rng: &mut Rng) -> Case {
    let mut lending = Lending::default();
    let (mut topics, mut partitions): (Vec<i64>, Vec<i64>) = (vec![], vec![]);
    let count = rng.below(4);
    for _ in 0..count {
        // A name may stand there twice.
        let known = !topics.is_empty() && rng.one_in(4);
        let [start, length] = if known { [topics[0], topics[1]] } else { lending.part(rng, true) };
        let asked = if rng.one_in(150) { 126 + rng.below(4) } else { rng.below(4) };
        topics.extend([start, length, asked as i64]);
        for _ in 0..asked {
            partitions.extend([rng.number_of(4), rng.number_of(8), rng.number_of(4)]);
        }
    }
    let mut own: Vec<Own> = (0..3).map(|_| Own::Number(rng.number_of(4))).collect();
    own.push(if rng.one_in(3) { Own::Absent } else { Own::Number(rng.number_of(4)) });
    own.push(match rng.below(12) {
        0..=3 => Own::Absent,
        4 => Own::Number(rng.number_of(1)),
        level => Own::Number(level as i64 % 2),
    });
    own.push(Own::Number(count as i64));
    finished(rng, &FETCH_REQUEST_WRITE, lending.lent, own, vec![topics, partitions])
}

/// Own words, tables of topics and of partitions, and the bytes that names are parts of.
#[derive(Clone)]
struct Request {
    own: [Own; 6],
    topics: Vec<i64>,
    partitions: Vec<i64>,
    lent: Vec<u8>,
}

/// A good one with these tables, over lent bytes of which the last is ill-formed.
fn of_tables(count: i64, topics: &[i64], partitions: &[i64]) -> Request {
    let mut lent = vec![b'n'; LONGEST as usize + 1];
    lent.push(0xff);
    let [replica, wait, least] = [-1, 500, 1].map(Own::Number);
    let own = [replica, wait, least, Own::Absent, Own::Absent, Own::Number(count)];
    Request { own, topics: topics.to_vec(), partitions: partitions.to_vec(), lent }
}

/// Two topics, of two partitions and of one.
fn two() -> Request {
    of_tables(2, &[0, 1, 2, 5, 3, 1], &[0, 256, 1, 7, -1, 1 << 20, -1, 1 << 40, 0])
}

const COUNTS: [i64; 12] = [-1, 0, 1, 2, 3, -2, i64::MIN, i64::MAX, 1 << 31, 1 << 32, (1 << 32) + 2, -(1 << 32)];

/// Counts of three topics over two partitions. Some add up with a -1 among them, some if sums wrapped or were 32 bits wide.
const SUMS: [[i64; 3]; 20] = [
    [2, 0, 0],
    [0, 2, 0],
    [0, 0, 2],
    [1, 0, 1],
    [0, 1, 0],
    [1, 1, 1],
    [-1, 2, 1],
    [2, -1, 1],
    [1, 2, -1],
    [-1, 2, 0],
    [0, 2, -1],
    [-1, -1, 4],
    [4, -2, 0],
    [0, -2, 4],
    [i64::MAX, i64::MAX, 4],
    [4, i64::MAX, i64::MAX],
    [i64::MIN, i64::MIN, 2],
    [2, 1 << 32, 0],
    [(1 << 32) + 2, 0, 0],
    [1 << 32, -(1 << 32), 2],
];

/// Counts that do not add up; a cut row is no row.
fn counted() -> Vec<Request> {
    let mut list = vec![];
    for count in COUNTS {
        let tables: [&[i64]; 4] = [&[], &[1, 1], &[0, 1, 0, 1, 2, 0], &[0, 1, 0, 1, 2, 0, 3]];
        list.extend(tables.map(|topics| of_tables(count, topics, &[])));
        let tables: [&[i64]; 5] = [&[], &[1], &[1, 2, 3], &[1, 2, 3, 4, 5], &[1, 2, 3, 4, 5, 6]];
        list.extend(tables.map(|partitions| of_tables(1, &[0, 1, count], partitions)));
    }
    for [first, second, third] in SUMS {
        list.push(of_tables(3, &[0, 1, first, 1, 1, second, 2, 1, third], &[1, 2, 3, 4, 5, 6]));
    }
    list
}

/// Ranges inside three lent bytes, at their end and beyond, of either of two names.
fn ranged() -> Vec<Request> {
    const CELLS: [i64; 8] = [0, 1, 3, 4, -1, i64::MIN, i64::MAX, i64::MAX - 2];
    let ranges = CELLS.into_iter().flat_map(|start| CELLS.map(|length| [start, length]));
    let of_range = |[start, length]: [i64; 2]| {
        [[start, length, 0, 0, 3, 0], [0, 3, 0, start, length, 0]].map(|topics| {
            let lent = b"abc".to_vec();
            Request { lent, ..of_tables(2, &topics, &[]) }
        })
    };
    ranges.flat_map(of_range).collect()
}

/// A name of each length behind a good one, well-formed or ill-formed at its end or behind its first byte.
fn named() -> Vec<Request> {
    let lengths = [0, 1, 127, 128, 32_766, 32_767, 32_768, 32_769];
    let of_length = |length: i64| {
        [40_000, length as usize - length.min(1) as usize, 1].map(|bad| {
            let mut request = of_tables(2, &[0, 1, 0, 0, length, 1], &[1, 2, 3]);
            let size = request.lent.len();
            request.lent.fill(b'n');
            request.lent[bad.min(size)..].fill(0xff);
            request
        })
    };
    lengths.into_iter().flat_map(of_length).collect()
}

/// Ends of Int8, Int32 and Int64, and levels.
const NUMBERS: [i64; 20] = [
    0,
    1,
    2,
    -1,
    -2,
    127,
    128,
    -128,
    -129,
    255,
    256,
    257,
    ABOVE - 1,
    ABOVE,
    BELOW + 1,
    BELOW,
    1 << 32,
    (1 << 32) + 1,
    i64::MAX,
    i64::MIN,
];

/// Each number of the body and of its partitions at these ends.
fn numbered() -> Vec<Request> {
    let mut list = vec![];
    for number in NUMBERS {
        for word in 0..5 {
            let mut request = two();
            request.own[word] = Own::Number(number);
            list.push(request);
        }
        for cell in 0..9 {
            let mut request = two();
            request.partitions[cell] = number;
            list.push(request);
        }
    }
    list
}

/// Set and unset in all combinations: the most bytes, and the isolation.
fn unset() -> Vec<Request> {
    let largest = [Own::Absent, Own::Number(-1), Own::Number(0), Own::Number(ABOVE - 1), Own::Number(ABOVE)];
    let levels = [Own::Absent, Own::Number(0), Own::Number(1), Own::Number(2), Own::Number(-1), Own::Number(256)];
    let with = |largest: Own| {
        levels.map(|level| {
            let mut request = two();
            [request.own[3], request.own[4]] = [largest, level];
            request
        })
    };
    largest.into_iter().flat_map(with).collect()
}

/// A fault, by what it changes: an own word, cells of a topic, or a cell of a partition.
#[derive(Clone, Copy)]
enum Fault {
    Word(usize, i64),
    Name(usize, [i64; 2]),
    Count(usize, i64),
    Cell(usize, i64),
}

impl Fault {
    fn plant(self, request: &mut Request) {
        match self {
            Fault::Word(word, number) => request.own[word] = Own::Number(number),
            Fault::Name(topic, range) => request.topics[3 * topic..][..2].copy_from_slice(&range),
            Fault::Count(topic, count) => request.topics[3 * topic + 2] = count,
            Fault::Cell(cell, number) => request.partitions[cell] = number,
        }
    }
}

/// Too long a name, an ill-formed one, one that is both, and one outside.
const NAMES: [[i64; 2]; 4] = [[0, 32_768], [32_768, 1], [1, 32_768], [0, 32_770]];

/// In field order, but for counts and ranges, which come before all others.
fn faults() -> Vec<Fault> {
    let mut list: Vec<Fault> =
        [ABOVE, BELOW, ABOVE, BELOW, 2].into_iter().enumerate().map(|(word, n)| Fault::Word(word, n)).collect();
    list.extend([-1, 3].map(|count| Fault::Word(5, count)));
    list.extend(NAMES.map(|name| Fault::Name(0, name)));
    list.extend([-1, 3].map(|count| Fault::Count(0, count)));
    list.extend([(0, ABOVE), (2, BELOW), (3, BELOW), (5, ABOVE)].map(|(cell, n)| Fault::Cell(cell, n)));
    list.extend(NAMES.map(|name| Fault::Name(1, name)));
    list.extend([-1, 0].map(|count| Fault::Count(1, count)));
    list.extend([(6, BELOW), (8, ABOVE)].map(|(cell, n)| Fault::Cell(cell, n)));
    list
}

/// Which of two faults is told: 13 before all, then by field, and for one name 11 before 7. Each fault alone too.
fn ordered() -> Vec<Request> {
    let faults = faults();
    let mut list = vec![];
    for (which, first) in faults.iter().enumerate() {
        for second in &faults[which..] {
            let mut request = two();
            first.plant(&mut request);
            second.plant(&mut request);
            list.push(request);
        }
    }
    list
}

/// 100 partitions over 10 topics, of names of every length up to 9.
fn hundred() -> Request {
    let topics: Vec<i64> = (0..10).flat_map(|number| [number, number, 10]).collect();
    let partitions: Vec<i64> = (0..100).flat_map(|index| [index, index << 33, 1 << 20]).collect();
    of_tables(10, &topics, &partitions)
}

/// Names that fill a body of that size where so many bytes stand in front of the topics; the last has `last` for its last byte,
/// and there is a partition in the last topic.
fn filled(size: usize, front: usize, last: u8) -> Request {
    const AROUND: i64 = 6;
    let mut left = (size - front - 4 - 16) as i64;
    let mut topics = vec![];
    while left > 0 {
        let mut length = (left - AROUND).min(LONGEST);
        // Behind this name there is room for another topic, or for nothing.
        if (1..AROUND).contains(&(left - AROUND - length)) {
            length -= AROUND;
        }
        left -= AROUND + length;
        // The last name ends with the lent bytes.
        topics.extend([if left > 0 { 0 } else { LONGEST + 1 - length }, length, i64::from(left == 0)]);
    }
    let mut request = of_tables(topics.len() as i64 / 3, &topics, &[1, 2, 3]);
    request.lent[LONGEST as usize] = last;
    request
}

/// What stands in front of the topics at versions 0 to 2, at 3, and at 4.
const FRONTS: [usize; 3] = [12, 16, 17];

/// Bodies of all sizes, far over the limit, and as many rows as a table holds; and faults that come before 2.
fn sized() -> Vec<Request> {
    let mut list: Vec<Request> =
        SIZES.into_iter().flat_map(|size| FRONTS.map(|front| filled(size, front, b'n'))).collect();
    list.push(filled(LIMIT + 1, FRONTS[2], 0xff));
    list.push(filled(3 * LIMIT, FRONTS[2], b'n'));
    let too_large = || filled(LIMIT + 1, FRONTS[2], b'n');
    let mut long = too_large();
    let [.., start, length, _] = &mut long.topics[..] else { unreachable!() };
    [*start, *length] = [0, LONGEST + 1];
    list.push(long);
    list.push(Request { partitions: vec![1, 2, ABOVE], ..too_large() });
    list.push(Request { partitions: vec![], ..too_large() });
    // 21,845 rows, with a cell behind them that is no row.
    list.extend([21_845, 21_846].map(|count| of_tables(count, &[0; 65_536], &[])));
    list.extend([21_845, 21_846].map(|count| of_tables(1, &[0, 1, count], &[7; 65_536])));
    list
}

fn case(request: &Request, version: i16, turn: u64) -> Case {
    let Request { own, topics, partitions, lent } = request.clone();
    let (own, tables) = (own.to_vec(), vec![topics, partitions]);
    let made = write_request(version.clamp(0, LAST), &Given { lent: &lent, own: &own, tables: &tables });
    let room = room(turn, made.map_or(9, |bytes| bytes.len()));
    Case::WriteBody { call: &FETCH_REQUEST_WRITE, room, version, lent, own, tables }
}

/// Each at every version and with every room.
fn everywhere(list: Vec<Request>) -> Section {
    let versions = VERSIONS.len() as u64;
    Section::new(list.len() as u64 * versions * ROOMS, move |index| {
        let (turn, rest) = (index % ROOMS, index / ROOMS);
        case(&list[(rest / versions) as usize], VERSIONS[(rest % versions) as usize], turn)
    })
}

pub fn ends() -> Section {
    everywhere([counted(), ranged(), named(), numbered(), unset(), vec![hundred()]].concat())
}

/// Pairs of faults at every version; rooms take turns.
pub fn pairs() -> Section {
    let (list, versions) = (ordered(), VERSIONS.len() as u64);
    Section::new(list.len() as u64 * versions, move |index| {
        case(&list[(index / versions) as usize], VERSIONS[(index % versions) as usize], index % ROOMS)
    })
}

pub fn sizes() -> Section {
    everywhere(sized())
}
