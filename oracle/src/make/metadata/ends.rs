//! Metadata responses at the ends of counts, lengths, rooms and sizes, read and looked up in.
use super::body::{begun, rows, sized};
use super::looked_up;
use crate::calls::METADATA_READ;
use crate::case::Case;
use crate::make::boundaries::SIZES;
use crate::make::ends::{self, Field, Of};
use crate::make::reads;
use crate::make::rng::Rng;
use crate::make::Section;
use crate::model::metadata::{LAST, WIDTHS};
use crate::model::LIMIT;

/// Every count and length of a body with one broker, one topic and one partition.
pub fn fields(version: i16) -> Vec<Field> {
    let later = usize::from(version >= 1);
    let mut list = vec![];
    let mut add = |name, front: &[u8], each, of| list.push(Field { name, front: front.to_vec(), each, of });
    let mut body = begun(version);
    add("brokers", &body.0, 10 + 2 * later, Of::Rows(WIDTHS[0]));
    body.ints(4, &[1, 7]);
    add("host", &body.0, 1, Of::Text);
    body.text(b"h");
    body.int(4, 9092);
    if version >= 1 {
        add("rack", &body.0, 1, Of::Text);
        body.null_text();
    }
    if version >= 2 {
        add("cluster", &body.0, 1, Of::Text);
    }
    body.middle(version);
    add("topics", &body.0, 8 + later, Of::Rows(WIDTHS[1]));
    body.int(4, 1);
    body.int(2, 3);
    add("name", &body.0, 1, Of::Text);
    body.text(b"t");
    body.int(later, 1);
    add("partitions", &body.0, 18, Of::Rows(WIDTHS[2]));
    body.int(4, 1);
    body.int(2, 0);
    body.ints(4, &[0, 1]);
    add("replicas", &body.0, 4, Of::Rows(WIDTHS[3]));
    body.int(4, -1);
    add("in_sync", &body.0, 4, Of::Rows(WIDTHS[4]));
    list
}

/// Read, or looked up in, by turns.
fn asked(seed: u64, index: u64, version: i16, message: Vec<u8>) -> Case {
    let mut rng = Rng::new(seed ^ 5, index);
    match index % 2 {
        0 => reads::body(&mut rng, &METADATA_READ, version, message),
        _ => looked_up(&mut rng, version, message),
    }
}

/// Each message of a list, asked in both ways.
fn both(seed: u64, list: Vec<ends::Message>) -> Section {
    ends::asked(list, 2, move |index, version, message| asked(seed, index, version, message))
}

pub fn counts(seed: u64) -> Section {
    both(seed, ends::counts(0..=LAST, fields))
}

pub fn texts(seed: u64) -> Section {
    both(seed, ends::texts(0..=LAST, fields))
}

/// A body with rows in every table.
fn full(version: i16) -> Vec<u8> {
    rows(version, [2, 2, 2, 2])
}

pub fn rooms() -> Section {
    ends::rooms(&METADATA_READ, full)
}

pub fn cuts(seed: u64) -> Section {
    both(seed, ends::cuts(0..=LAST, full))
}

/// 200 topics of 8 partitions with 3 replicas each: rooms exact, each of them in turn a cell short, and the largest; looked up in.
pub fn large() -> Section {
    let turns = ends::turns(&METADATA_READ) + 1;
    Section::new(turns * (LAST as u64 + 1), move |index| {
        let version = (index / turns) as i16;
        let message = rows(version, [5, 200, 8, 3]);
        match index % turns {
            last if last + 1 == turns => Case::Host { version, node: 4, message },
            turn => ends::tight(&METADATA_READ, version, message, turn),
        }
    })
}

/// Bodies of each size, and with one more byte behind them; and the version judged before the size.
pub fn sizes(seed: u64) -> Section {
    let mut list = vec![];
    for version in 0..=LAST {
        list.extend(SIZES.map(|size| (version, size, 0)));
        list.extend(SIZES.map(|size| (version, size - 1, 1)));
    }
    list.extend([-1, 5].map(|version| (version, LIMIT + 1, 0)));
    Section::new(2 * list.len() as u64, move |index| {
        let (version, size, behind) = list[(index / 2) as usize];
        let mut message = sized(version, size);
        message.resize(size + behind, 0xff);
        asked(seed, index, version, message)
    })
}
