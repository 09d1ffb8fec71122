//! Fetch responses at the ends of counts, lengths, rooms and sizes.
use super::body::{begun, of_names, of_records, rows};
use crate::calls::FETCH_READ;
use crate::case::Case;
use crate::make::boundaries::SIZES;
use crate::make::ends::{self, Field, Of};
use crate::make::reads;
use crate::make::rng::Rng;
use crate::make::Section;
use crate::model::fetch::{LAST, WIDTHS};
use crate::model::LIMIT;

/// Every count and length of a body with one topic and one partition.
pub fn fields(version: i16) -> Vec<Field> {
    let mut list = vec![];
    let mut add = |name, front: &[u8], each, of| list.push(Field { name, front: front.to_vec(), each, of });
    let mut body = begun(version);
    add("topics", &body.0, 6, Of::Rows(WIDTHS[0]));
    body.int(4, 1);
    add("name", &body.0, 1, Of::Text);
    body.text(b"t");
    add("partitions", &body.0, if version >= 4 { 30 } else { 18 }, Of::Rows(WIDTHS[1]));
    body.ints(4, &[1, 7]);
    body.int(2, 3);
    body.int(8, 9);
    if version >= 4 {
        body.int(8, 8);
        add("aborted", &body.0, 16, Of::Rows(WIDTHS[2]));
        body.int(4, -1);
    }
    add("records", &body.0, 1, Of::Data);
    list
}

fn read(seed: u64, index: u64, version: i16, message: Vec<u8>) -> Case {
    reads::body(&mut Rng::new(seed ^ 6, index), &FETCH_READ, version, message)
}

fn all(seed: u64, list: Vec<ends::Message>) -> Section {
    ends::asked(list, 1, move |index, version, message| read(seed, index, version, message))
}

pub fn counts(seed: u64) -> Section {
    all(seed, ends::counts(0..=LAST, fields))
}

pub fn texts(seed: u64) -> Section {
    all(seed, ends::texts(0..=LAST, fields))
}

/// A body with rows in every table.
fn full(version: i16) -> Vec<u8> {
    rows(version, [2, 2, 2, 3])
}

pub fn rooms() -> Section {
    ends::rooms(&FETCH_READ, full)
}

pub fn cuts(seed: u64) -> Section {
    let mut list = ends::cuts(0..=LAST, full);
    list.extend(ends::cuts(0..=LAST, |version| rows(version, [1, 4, 0, 0])));
    all(seed, list)
}

/// 4 topics of 8 partitions with 1 KiB of records each: rooms exact, each of them in turn a cell short, and the largest.
pub fn large() -> Section {
    let turns = ends::turns(&FETCH_READ);
    Section::new(turns * (LAST as u64 + 1), move |index| {
        let version = (index / turns) as i16;
        ends::tight(&FETCH_READ, version, rows(version, [4, 8, 2, 1024]), index % turns)
    })
}

/// Bodies of each size, full of records or of names, and with one more byte behind them; and the version judged before the size.
pub fn sizes(seed: u64) -> Section {
    let mut list = vec![];
    for version in 0..=LAST {
        list.extend(SIZES.map(|size| (version, size, 0)));
        list.extend(SIZES.map(|size| (version, size - 1, 1)));
    }
    list.extend([-1, 5].map(|version| (version, LIMIT + 1, 0)));
    Section::new(2 * list.len() as u64, move |index| {
        let (version, size, behind) = list[(index / 2) as usize];
        let mut message = if index % 2 == 0 { of_records(version, size) } else { of_names(version, size) };
        message.resize(size + behind, 0xff);
        read(seed, index, version, message)
    })
}
