//! Befrolan beside the Rust that it carries over, in one process, both built for release: the instructions of one call and, on a
//! real x86-64 machine, its time. Each row runs the same bytes or values through the C interface and through the Rust, and what
//! both say is compared first. docs/PERFORMANCE.md has the table.

mod bodies;
mod count;
mod frames;
#[allow(dead_code)]
#[path = "../../binding/src/raw.rs"]
mod raw;
mod varints;

// Linked for its library alone: the calls are made as C makes them.
use befrolan as _;
use oracle::protocol::messages::*;
use oracle::protocol::primitives::{NullableString, UnsignedVarint};
use oracle::protocol::traits::{ReadType, WriteType};
use oracle::rust::api_versions::version;
use std::hint::black_box;
use std::io::Cursor;
use std::time::Instant;

extern "C" {
    fn befrolan_read_primitive(msg: *const u8, msg_len: usize, kind: u64) -> Primitive;
}

#[allow(dead_code)]
#[repr(C)]
struct Primitive {
    number: i64,
    place: i64,
    need: i64,
    used: i64,
    form: i64,
    value: i64,
    length: i64,
}

/// The median time of one call in nanoseconds, over 15 batches of about 2 ms.
fn nanoseconds<F: FnMut()>(mut f: F) -> f64 {
    let start = Instant::now();
    f();
    let once = start.elapsed().as_nanos().max(20) as u64;
    let turns = (2_000_000 / once).clamp(1, 100_000);
    let mut batches: Vec<f64> = (0..15)
        .map(|_| {
            let start = Instant::now();
            (0..turns).for_each(|_| f());
            start.elapsed().as_nanos() as f64 / turns as f64
        })
        .collect();
    batches.sort_by(f64::total_cmp);
    batches[7]
}

/// What is worked out must not be left out.
fn keep<T>(value: T) {
    black_box(value);
}

/// Counting takes microseconds an instruction; larger bodies are timed alone.
const COUNTED: usize = 100_000;

/// The bytes of one call, and how many calls a closure makes.
struct Each {
    bytes: usize,
    calls: u64,
}

fn one(bytes: usize) -> Each {
    Each { bytes, calls: 1 }
}

/// One row: what, the bytes, both counts and their ratio, and the same for time where it is asked for.
fn row<F: FnMut(), G: FnMut()>(timed: bool, what: &str, each: Each, mut ours: F, mut theirs: G) {
    let Each { bytes, calls } = each;
    print!("| {what} | {bytes} |");
    if bytes <= COUNTED {
        let (n, m) = (count::instructions(&mut ours) / calls, count::instructions(&mut theirs) / calls);
        print!(" {n} | {m} | {:.2} |", n as f64 / m as f64);
    } else {
        print!(" | | |");
    }
    if timed {
        let (t, u) = (nanoseconds(&mut ours) / calls as f64, nanoseconds(&mut theirs) / calls as f64);
        print!(" {t:.1} | {u:.1} | {:.2} |", t / u);
    }
    println!();
}

struct Tables {
    a: Vec<i64>,
    b: Vec<i64>,
    c: Vec<i64>,
    d: Vec<i64>,
    e: Vec<i64>,
}

fn api_versions(timed: bool, t: &mut Tables, items: i64) {
    let body = bodies::api_versions(items);
    let theirs = || ApiVersionsResponse::read_versioned(&mut Cursor::new(black_box(&body[..])), version(3)).unwrap();
    let cells = 4 * items as usize;
    // SAFETY: slices with their lengths, that do not overlap.
    let mut ours = || unsafe {
        raw::befrolan_read_api_versions_response(
            body.as_ptr(),
            body.len(),
            3,
            1,
            t.a.as_mut_ptr(),
            cells,
            t.b.as_mut_ptr(),
            3,
        )
    };
    assert_eq!((ours().number, ours().items as usize), (0, theirs().api_keys.len()));
    let what = format!("ApiVersions v3 x {items}, read");
    row(timed, &what, one(body.len()), || keep(ours()), || keep(theirs()));
}

fn api_versions_written(timed: bool, t: &mut Tables) {
    let value = bodies::api_versions_value(60);
    let mut kept: Vec<u8> = Vec::with_capacity(1 << 20);
    for (i, key) in value.api_keys.iter().enumerate() {
        t.a[4 * i..4 * i + 4].copy_from_slice(&[key.api_key.0.into(), 0, key.max_version.0 .0.into(), 0]);
    }
    let own = [0i64, 60, 0, 0, 0];
    let mut out = vec![0u8; 1 << 20];
    // SAFETY: slices with their lengths, that do not overlap, and five cells.
    let mut ours = || unsafe {
        raw::befrolan_write_api_versions_response(
            out.as_mut_ptr(),
            out.len(),
            3,
            [0u8].as_ptr(),
            0,
            own.as_ptr(),
            t.a.as_ptr(),
            240,
            t.b.as_ptr(),
            0,
        )
    };
    let mut theirs = || {
        kept.clear();
        black_box(&value).write_versioned(&mut kept, version(3)).unwrap();
        kept.len()
    };
    assert_eq!((ours().number, ours().used as usize), (0, theirs()));
    row(timed, "ApiVersions v3 x 60, written", one(theirs()), || keep(ours()), || keep(theirs()));
    assert_eq!(out[..kept.len()], kept);
}

fn metadata(timed: bool, t: &mut Tables, brokers: i64, topics: i64) {
    let body = bodies::metadata(brokers, topics);
    let theirs = || MetadataResponse::read_versioned(&mut Cursor::new(black_box(&body[..])), version(4)).unwrap();
    // SAFETY: slices with their lengths, that do not overlap.
    let mut ours = || unsafe {
        raw::befrolan_read_metadata_response(
            body.as_ptr(),
            body.len(),
            4,
            t.a.as_mut_ptr(),
            t.a.len(),
            t.b.as_mut_ptr(),
            t.b.len(),
            t.c.as_mut_ptr(),
            t.c.len(),
            t.d.as_mut_ptr(),
            t.d.len(),
            t.e.as_mut_ptr(),
            t.e.len(),
        )
    };
    assert_eq!((ours().number, ours().topics as usize), (0, theirs().topics.len()));
    let what = format!("Metadata v4, {brokers} brokers, {topics} x 8 x (3 + 3), read");
    row(timed, &what, one(body.len()), || keep(ours()), || keep(theirs()));
}

fn fetch(timed: bool, t: &mut Tables, topics: i64, records: i64) {
    let body = bodies::fetch(topics, records);
    let theirs = || FetchResponse::read_versioned(&mut Cursor::new(black_box(&body[..])), version(4)).unwrap();
    // SAFETY: slices with their lengths, that do not overlap.
    let mut ours = || unsafe {
        raw::befrolan_read_fetch_response(
            body.as_ptr(),
            body.len(),
            4,
            t.a.as_mut_ptr(),
            t.a.len(),
            t.c.as_mut_ptr(),
            t.c.len(),
            t.d.as_mut_ptr(),
            t.d.len(),
        )
    };
    assert_eq!((ours().number, ours().topics as usize), (0, theirs().responses.len()));
    let what = format!("Fetch v4, {topics} x 8 x {records} bytes, read");
    row(timed, &what, one(body.len()), || keep(ours()), || keep(theirs()));
}

fn fetch_request(timed: bool, t: &mut Tables) {
    let value = bodies::fetch_request();
    let mut names = Vec::new();
    for (i, topic) in value.topics.iter().enumerate() {
        t.a[3 * i..3 * i + 3].copy_from_slice(&[names.len() as i64, topic.topic.0.len() as i64, 10]);
        names.extend_from_slice(topic.topic.0.as_bytes());
        for (j, p) in topic.partitions.iter().enumerate() {
            let at = 3 * (10 * i + j);
            t.b[at..at + 3].copy_from_slice(&[p.partition.0.into(), p.fetch_offset.0, p.partition_max_bytes.0.into()]);
        }
    }
    let own = [-1i64, 500, 1, 0, 0, 0, 0, 10];
    let mut out = vec![0u8; 1 << 20];
    // SAFETY: slices with their lengths, that do not overlap, and eight cells.
    let mut ours = || unsafe {
        raw::befrolan_write_fetch_request(
            out.as_mut_ptr(),
            out.len(),
            4,
            names.as_ptr(),
            names.len(),
            own.as_ptr(),
            t.a.as_ptr(),
            30,
            t.b.as_ptr(),
            300,
        )
    };
    let mut kept: Vec<u8> = Vec::with_capacity(1 << 20);
    let mut theirs = || {
        kept.clear();
        black_box(&value).write_versioned(&mut kept, version(4)).unwrap();
        kept.len()
    };
    assert_eq!((ours().number, ours().used as usize), (0, theirs()));
    row(timed, "Fetch request v4, 100 partitions, written", one(theirs()), || keep(ours()), || keep(theirs()));
    assert_eq!(out[..kept.len()], kept);
}

/// Calls so short that the loop around them would count: so many in a row, and the count and time of one.
const TURNS: u64 = 1024;

fn primitive(timed: bool, what: &str, body: &[u8], kind: u64, theirs: impl Fn() -> u64) {
    // SAFETY: a slice with its length.
    let ours = || unsafe { befrolan_read_primitive(black_box(body.as_ptr()), body.len(), kind) };
    assert_eq!((ours().number, ours().used as usize), (0, body.len()), "{what}");
    let turns = Each { bytes: body.len(), calls: TURNS };
    row(timed, what, turns, || (0..TURNS).for_each(|_| keep(ours())), || (0..TURNS).for_each(|_| keep(theirs())));
}

/// The greatest number whose varint has so many bytes, of one to ten.
fn greatest(bytes: usize) -> u64 {
    if bytes == 10 {
        u64::MAX
    } else {
        (1 << (7 * bytes)) - 1
    }
}

fn primitives(timed: bool) {
    for k in 1..=10usize {
        let mut body = Vec::new();
        UnsignedVarint(greatest(k)).write(&mut body).unwrap();
        let theirs = || UnsignedVarint::read(&mut Cursor::new(black_box(&body[..]))).unwrap().0;
        primitive(timed, &format!("unsigned varint of {k} bytes"), &body, UNSIGNED_VARINT, theirs);
    }
    for size in [8, 20, 64] {
        let mut body = vec![0, size];
        body.extend((0..size).map(|x| b'a' + x % 26));
        let theirs = || NullableString::read(&mut Cursor::new(black_box(&body[..]))).unwrap().0.unwrap().len() as u64;
        primitive(timed, &format!("NULLABLE_STRING of {size} bytes"), &body, NULLABLE_STRING, theirs);
        let checked = || std::str::from_utf8(black_box(&body[2..])).unwrap().len() as u64;
        primitive(
            timed,
            &format!("the same beside `from_utf8` of {size} bytes alone"),
            &body,
            NULLABLE_STRING,
            checked,
        );
    }
}

// Kinds of include/befrolan.h.
const UNSIGNED_VARINT: u64 = 5;
const NULLABLE_STRING: u64 = 15;

fn main() {
    let timed = std::env::args().nth(1).as_deref() == Some("timed");
    let table = || vec![0i64; 1 << 20];
    let mut t = Tables { a: table(), b: table(), c: table(), d: table(), e: table() };
    print!("| what | bytes | instructions | the Rust's | ratio |");
    println!("{}", if timed { " ns | the Rust's | ratio |" } else { "" });
    println!("|---|---|---|---|---|{}", if timed { "---|---|---|" } else { "" });
    api_versions(timed, &mut t, 60);
    api_versions_written(timed, &mut t);
    metadata(timed, &mut t, 50, 200);
    fetch(timed, &mut t, 4, 1024);
    fetch_request(timed, &mut t);
    frames::response(timed, &mut t, 60);
    frames::request(timed, &mut t);
    for length in [0, 1831] {
        frames::written(timed, length);
    }
    primitives(timed);
    varints::rows(timed);
    // cost against size, from 1 KiB to 1 MiB
    for items in [150, 600, 2400, 149_000] {
        api_versions(timed, &mut t, items);
    }
    for topics in [2, 8, 32, 2800] {
        metadata(timed, &mut t, 2, topics);
    }
    for records in [100, 1000, 8000, 32000, 130_000] {
        fetch(timed, &mut t, 1, records);
    }
}
