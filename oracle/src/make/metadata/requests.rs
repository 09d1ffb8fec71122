//! Metadata requests to write: values, some with a fault, and the ends of counts, ranges, names and sizes.
use crate::calls::METADATA_REQUEST_WRITE;
use crate::case::Case;
use crate::make::boundaries::SIZES;
use crate::make::rng::Rng;
use crate::make::writes::{finished, Lending};
use crate::make::written::{room, ROOMS};
use crate::make::Section;
use crate::model::metadata::{write_request, LAST};
use crate::model::write::{Given, Own};
use crate::model::LIMIT;

const CREATIONS: [Own; 3] = [Own::Absent, Own::Flag(false), Own::Flag(true)];
const VERSIONS: [i16; 7] = [-1, 0, 1, 2, 3, 4, 5];
const LONGEST: i64 = 32_767;

pub fn request(rng: &mut Rng) -> Case {
    let mut lending = Lending::default();
    let mut topics: Vec<[i64; 2]> = vec![];
    let count = match rng.below(40) {
        0 => 126 + rng.below(4),
        _ => rng.below(5),
    };
    for _ in 0..count {
        // A name may stand there twice.
        let known = !topics.is_empty() && rng.one_in(4);
        let name = if known { rng.pick(&topics) } else { lending.part(rng, true) };
        topics.push(name);
    }
    let told = if count == 0 && rng.one_in(2) { -1 } else { count as i64 };
    let own = vec![Own::Number(told), rng.pick(&CREATIONS)];
    finished(rng, &METADATA_REQUEST_WRITE, lending.lent, own, vec![topics.concat()])
}

/// A topic count, the table, and the bytes that names are parts of.
#[derive(Clone)]
struct Topics(i64, Vec<i64>, Vec<u8>);

/// Null, and counts that do not add up; a cut row is no row.
fn counted() -> Vec<Topics> {
    let counts = [-1, 0, 1, 2, 3, -2, i64::MIN, i64::MAX, 1 << 31, 1 << 32, (1 << 32) + 2, -(1 << 32)];
    let tables: [&[i64]; 4] = [&[], &[1], &[0, 1, 1, 2], &[0, 1, 1, 2, 3]];
    let of_table = |cells: &[i64]| counts.map(|count| Topics(count, cells.to_vec(), b"abc".to_vec()));
    tables.into_iter().flat_map(of_table).collect()
}

/// Ranges inside three lent bytes, at their end and beyond; the first name is good.
fn ranged() -> Vec<Topics> {
    const CELLS: [i64; 8] = [0, 1, 3, 4, -1, i64::MIN, i64::MAX, i64::MAX - 2];
    let ranges = CELLS.into_iter().flat_map(|start| CELLS.map(|length| [start, length]));
    ranges.map(|[start, length]| Topics(2, vec![0, 3, start, length], b"abc".to_vec())).collect()
}

/// A name of that length behind a good one; the lent bytes are ill-formed from `bad` on.
fn named(length: i64, bad: usize) -> Topics {
    let mut lent = vec![b'n'; 32_769];
    lent[bad.min(32_768)..].fill(0xff);
    Topics(2, vec![0, 1, 0, length], lent)
}

/// Which of two faults is told: 13 before all, then by field, and for one name 11 before 7.
fn ordered() -> Vec<Topics> {
    let (long, bad, outside, good) = ([0, 32_768], [32_768, 1], [0, 32_770], [5, 5]);
    let faults = [long, bad, outside, good];
    let pairs = faults.into_iter().flat_map(|first| faults.map(|second| [first, second].concat()));
    pairs.map(|cells| Topics(2, cells, named(0, 32_768).2)).collect()
}

/// Names that fill a body of that size at version 4, or at those below; the last has `last` for its last byte.
fn filled(size: usize, at_last: bool, last: u8) -> Topics {
    let mut left = (size - 4 - usize::from(at_last)) as i64;
    let mut lent = vec![b'n'; LONGEST as usize];
    lent.push(last);
    let mut cells = vec![];
    while left > 1 {
        let length = (left - 2).min(LONGEST);
        left -= 2 + length;
        // The last name ends with the lent bytes.
        cells.extend([if left > 1 { 0 } else { LONGEST + 1 - length }, length]);
    }
    Topics(cells.len() as i64 / 2, cells, lent)
}

/// Bodies of all sizes, far over the limit, and as many names as a table holds; and faults that come before 2.
fn sized() -> Vec<Topics> {
    let mut list: Vec<Topics> =
        SIZES.into_iter().flat_map(|size| [true, false].map(|at_last| filled(size, at_last, b'n'))).collect();
    list.push(filled(LIMIT + 1, true, 0xff));
    list.push(filled(3 * LIMIT, true, b'n'));
    let mut long = filled(LIMIT + 1, true, b'n');
    let [.., start, length] = &mut long.1[..] else { unreachable!() };
    [*start, *length] = [0, LONGEST + 1];
    list.push(long);
    list.push(Topics(32_768, vec![0; 65_536], vec![]));
    list.push(Topics(32_767, vec![0; 65_536], vec![]));
    list
}

fn case(Topics(count, cells, lent): Topics, version: i16, creation: Own, turn: u64) -> Case {
    let (own, tables) = (vec![Own::Number(count), creation], vec![cells]);
    let made = write_request(version.clamp(0, LAST), &Given { lent: &lent, own: &own, tables: &tables });
    let room = room(turn, made.map_or(9, |bytes| bytes.len()));
    Case::WriteBody { call: &METADATA_REQUEST_WRITE, room, version, lent, own, tables }
}

/// Small ones at every version, with every auto-creation and room.
pub fn ends() -> Section {
    let lengths = [0, 1, 127, 128, 32_766, 32_767, 32_768, 32_769];
    let names = lengths.into_iter().flat_map(|n| [40_000, n as usize - n.min(1) as usize, 1].map(|bad| named(n, bad)));
    let list: Vec<Topics> = [counted(), ranged(), names.collect(), ordered()].concat();
    let [versions, creations] = [VERSIONS.len() as u64, CREATIONS.len() as u64];
    Section::new(list.len() as u64 * versions * creations * ROOMS, move |index| {
        let (turn, rest) = (index % ROOMS, index / ROOMS);
        let (creation, rest) = (CREATIONS[(rest % creations) as usize], rest / creations);
        let (version, which) = (VERSIONS[(rest % versions) as usize], rest / versions);
        case(list[which as usize].clone(), version, creation, turn)
    })
}

/// Large ones at every version and with every room; auto-creation takes turns.
pub fn sizes() -> Section {
    let (list, versions) = (sized(), VERSIONS.len() as u64);
    Section::new(list.len() as u64 * versions * ROOMS, move |index| {
        let (turn, rest) = (index % ROOMS, index / ROOMS);
        let (version, which) = (VERSIONS[(rest % versions) as usize], rest / versions);
        case(list[which as usize].clone(), version, CREATIONS[(index % 3) as usize], turn)
    })
}
