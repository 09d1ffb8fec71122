//! Fetch responses laid out by hand, with so many rows or so many bytes.
use crate::make::body::Body;

/// The longest name.
const LONGEST: usize = 32_767;

/// A body up to its topics.
pub fn begun(version: i16) -> Body {
    let mut body = Body::default();
    if version >= 1 {
        body.int(4, 9);
    }
    body
}

/// A partition up to its records.
fn lead(body: &mut Body, version: i16, index: usize, aborted: usize) {
    body.int(4, index as i64);
    body.int(2, index as i64 % 3);
    body.int(8, (1 << 40) + index as i64);
    if version >= 4 {
        body.int(8, index as i64 - 1);
        body.int(4, aborted as i64);
        (0..aborted).for_each(|pair| body.ints(8, &[-5 - pair as i64, (1 << 33) + pair as i64]));
    }
}

/// So many topics, partitions of each topic, aborted pairs of each partition where the version has them, and bytes of records.
/// The records of every third partition are null where they have no bytes.
pub fn rows(version: i16, [topics, partitions, aborted, records]: [usize; 4]) -> Vec<u8> {
    let mut body = begun(version);
    body.int(4, topics as i64);
    for number in 0..topics {
        body.text(format!("t{number}").as_bytes());
        body.int(4, partitions as i64);
        for index in 0..partitions {
            lead(&mut body, version, index, aborted);
            match records {
                0 if index % 3 == 2 => body.int(4, -1),
                _ => body.data(&vec![(number * partitions + index) as u8; records]),
            }
        }
    }
    body.0
}

/// A body of just so many bytes, from 127 on: one partition whose records fill it.
pub fn of_records(version: i16, size: usize) -> Vec<u8> {
    let empty = rows(version, [1, 1, 0, 0]).len();
    rows(version, [1, 1, 0, size - empty])
}

/// A body of just so many bytes, from 127 on: topics with names as long as can be, the last as long as is left.
pub fn of_names(version: i16, size: usize) -> Vec<u8> {
    // What a topic without partitions has beside its name.
    const AROUND: usize = 6;
    let empty = rows(version, [0; 4]).len();
    let topics = (size - empty).div_ceil(AROUND + LONGEST);
    let mut left = size - empty - topics * AROUND;
    let mut body = begun(version);
    body.int(4, topics as i64);
    for _ in 0..topics {
        let name = vec![b'n'; left.min(LONGEST)];
        left -= name.len();
        body.text(&name);
        body.int(4, 0);
    }
    body.0
}
