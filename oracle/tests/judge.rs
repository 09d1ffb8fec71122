//! Would a wrong rule be noticed? Readers and writers with one slip each, held against the Rust.
use oracle::calls::{never, response, ReadBody, WriteBody, FETCH_READ, FETCH_REQUEST_WRITE};
use oracle::calls::{METADATA_READ, METADATA_REQUEST_WRITE, RESPONSE_READS, RESPONSE_WRITE};
use oracle::case::Case;
use oracle::judge::judge;
use oracle::line::{Refusal, Word};
use oracle::make::{fetch as fetched, metadata as made, reads, rng::Rng, writes, Section};
use oracle::model::write::{Given, Own};
use oracle::model::{api_versions, fetch, metadata, Shown};

/// The prefix read of a response, but for its model.
const fn slip(model: for<'a> fn(i16, bool, &'a [u8]) -> Result<Shown<'a>, Refusal>) -> ReadBody {
    ReadBody { model, ..response("response_read", false) }
}

static SWAPPED: ReadBody = slip(|version, whole, message| {
    let mut shown = api_versions::read_response(version, whole, message)?;
    shown.tables[0].chunks_exact_mut(4).for_each(|item| item.swap(1, 2));
    Ok(shown)
});
static ONE_MORE_USED: ReadBody = slip(|version, whole, message| {
    let mut shown = api_versions::read_response(version, whole, message)?;
    shown.used += 1;
    Ok(shown)
});
static NO_THROTTLE_AT_TWO: ReadBody =
    slip(|version, whole, message| api_versions::read_response(if version == 2 { 0 } else { version }, whole, message));
static NULL_REFUSED: ReadBody = slip(|version, _, message| api_versions::read_response(version, true, message));
static LATE_DATA: ReadBody = slip(|version, whole, message| {
    let mut shown = api_versions::read_response(version, whole, message)?;
    shown.tables[1].chunks_exact_mut(3).filter(|tag| tag[1] > 0).for_each(|tag| tag[1] -= 1);
    Ok(shown)
});
static THROTTLE_UNSIGNED: ReadBody = slip(|version, whole, message| {
    let mut shown = api_versions::read_response(version, whole, message)?;
    if let Word::Number(n) = &mut shown.own[2] {
        *n &= 0xffff_ffff;
    }
    Ok(shown)
});

fn complaints(cases: impl Iterator<Item = Case>) -> usize {
    cases.filter(|case| judge(case).complaint.is_some()).count()
}

fn responses(call: &'static ReadBody) -> impl Iterator<Item = Case> {
    (0..3000).map(move |index| {
        let mut rng = Rng::new(7, index);
        let version = rng.below(4) as i16;
        let message = reads::response_bytes(&mut rng, version);
        Case::ReadBody { call, version, rooms: vec![64, 64], message }
    })
}

#[test]
fn slips_in_reading_are_noticed() {
    assert_eq!(complaints(responses(&RESPONSE_READS[0])), 0);
    for call in [&SWAPPED, &ONE_MORE_USED, &NO_THROTTLE_AT_TWO, &NULL_REFUSED, &LATE_DATA, &THROTTLE_UNSIGNED] {
        assert!(complaints(responses(call)) > 20);
    }
}

fn one_byte_more(version: i16, given: &Given) -> Result<Vec<u8>, Refusal> {
    api_versions::write_response(version, given).map(|bytes| [bytes, vec![0]].concat())
}

fn never_refused(version: i16, given: &Given) -> Result<Vec<u8>, Refusal> {
    api_versions::write_response(version, given).or_else(|no| if no.number == 13 { Err(no) } else { Ok(vec![]) })
}

/// The writer of a response, but for its model.
const fn slip_in_writing(model: fn(i16, &Given) -> Result<Vec<u8>, Refusal>) -> WriteBody {
    WriteBody { model, ..RESPONSE_WRITE }
}

static MORE: WriteBody = slip_in_writing(one_byte_more);
static NEVER: WriteBody = slip_in_writing(never_refused);

fn written(call: &'static WriteBody, made: fn(&mut Rng) -> Case) -> impl Iterator<Item = Case> {
    (0..2000).map(move |index| match made(&mut Rng::new(8, index)) {
        Case::WriteBody { room, version, lent, own, tables, .. } => {
            Case::WriteBody { call, room, version, lent, own, tables }
        }
        _ => unreachable!(),
    })
}

#[test]
fn slips_in_writing_are_noticed() {
    assert_eq!(complaints(written(&RESPONSE_WRITE, writes::response)), 0);
    assert!(complaints(written(&MORE, writes::response)) > 20);
    // What the Rust's types cannot hold rests on the rules alone, and so a writer that never gives 11 is not noticed.
    assert_eq!(complaints(written(&NEVER, writes::response)), 0);
}

/// The read of a response, with one slip in what it shows.
macro_rules! shown_slip {
    ($call:ident, $change:expr) => {
        ReadBody {
            model: |version, whole, message| {
                let mut shown = ($call.model)(version, whole, message)?;
                let change: fn(&mut Shown) = $change;
                change(&mut shown);
                Ok(shown)
            },
            ..$call
        }
    };
}

macro_rules! metadata_slip {
    ($change:expr) => {
        shown_slip!(METADATA_READ, $change)
    };
}

macro_rules! fetch_slip {
    ($change:expr) => {
        shown_slip!(FETCH_READ, $change)
    };
}

/// Cells of a column that are one number become another.
fn changed(shown: &mut Shown, table: usize, column: usize, from: i64, to: i64) {
    let cells = shown.tables[table].iter_mut().skip(column).step_by(metadata::WIDTHS[table]);
    cells.filter(|cell| **cell == from).for_each(|cell| *cell = to);
}

static RACK_ABSENT_FOR_NULL: ReadBody = metadata_slip!(|shown| changed(shown, 0, 4, 1, 0));
static EMPTY_FOR_NULL_REPLICAS: ReadBody = metadata_slip!(|shown| changed(shown, 2, 3, -1, 0));
static NULL_FOR_NO_IN_SYNC: ReadBody = metadata_slip!(|shown| changed(shown, 2, 4, 0, -1));
static FLAG_FOR_NONE: ReadBody = metadata_slip!(|shown| changed(shown, 1, 3, -1, 0));
static NODES_SWAPPED: ReadBody = metadata_slip!(|shown| shown.tables.swap(3, 4));
static ONE_NODE_MORE: ReadBody = metadata_slip!(|shown| shown.tables[4].push(0));
static CONTROLLER_AS_THROTTLE: ReadBody = metadata_slip!(|shown| shown.own.swap(0, 3));
static CLUSTER_ABSENT: ReadBody = metadata_slip!(|shown| shown.own[2] = Word::Absent);
static HOST_EARLY: ReadBody = metadata_slip!(|shown| {
    shown.tables[0].chunks_exact_mut(7).for_each(|broker| broker[1] -= 1);
});

fn metadata_bodies(call: &'static ReadBody) -> impl Iterator<Item = Case> {
    (0..3000).map(move |index| {
        let mut rng = Rng::new(9, index);
        let version = rng.below(5) as i16;
        let message = made::response_bytes(&mut rng, version);
        Case::ReadBody { call, version, rooms: vec![64; 5], message }
    })
}

#[test]
fn slips_in_reading_metadata_are_noticed() {
    assert_eq!(complaints(metadata_bodies(&METADATA_READ)), 0);
    let slips = [
        &RACK_ABSENT_FOR_NULL,
        &EMPTY_FOR_NULL_REPLICAS,
        &NULL_FOR_NO_IN_SYNC,
        &FLAG_FOR_NONE,
        &NODES_SWAPPED,
        &ONE_NODE_MORE,
        &CONTROLLER_AS_THROTTLE,
        &CLUSTER_ABSENT,
        &HOST_EARLY,
    ];
    for (which, call) in slips.into_iter().enumerate() {
        assert!(complaints(metadata_bodies(call)) > 20, "slip {which}");
    }
}

/// The writer of a Metadata request, but for its model and for what it takes to be entry 4.
const fn slip_in_request(
    model: fn(i16, &Given) -> Result<Vec<u8>, Refusal>,
    unavailable: fn(i16, &Given) -> Option<Vec<Own>>,
) -> WriteBody {
    WriteBody { model, unavailable, ..METADATA_REQUEST_WRITE }
}

static UNSET_IS_FALSE: WriteBody = slip_in_request(
    |version, given| {
        let creation = if given.own[1] == Own::Absent { Own::Flag(false) } else { given.own[1] };
        metadata::write_request(version, &Given { own: &[given.own[0], creation], ..*given })
    },
    metadata::without_creation,
);
static NULL_IS_EMPTY: WriteBody = slip_in_request(
    |version, given| {
        let count = if given.own[0] == Own::Number(-1) { Own::Number(0) } else { given.own[0] };
        metadata::write_request(version, &Given { own: &[count, given.own[1]], ..*given })
    },
    metadata::without_creation,
);
static CREATION_AT_THREE: WriteBody = slip_in_request(
    |version, given| metadata::write_request(if version == 3 { 4 } else { version }, given),
    metadata::without_creation,
);
static NO_ENTRY_4: WriteBody = slip_in_request(metadata::write_request, never);

#[test]
fn slips_in_writing_metadata_are_noticed() {
    let requests = |call| complaints(written(call, made::requests::request));
    assert_eq!(requests(&METADATA_REQUEST_WRITE), 0);
    for call in [&UNSET_IS_FALSE, &NULL_IS_EMPTY, &CREATION_AT_THREE, &NO_ENTRY_4] {
        assert!(requests(call) > 20);
    }
}

/// Each row of a table that a Fetch response shows.
fn each_row(shown: &mut Shown, table: usize, change: fn(&mut [i64])) {
    shown.tables[table].chunks_exact_mut(fetch::WIDTHS[table]).for_each(change);
}

static PAIRS_SWAPPED: ReadBody = fetch_slip!(|shown| each_row(shown, 2, |pair| pair.swap(0, 1)));
static PAIRS_LEFT_OVER: ReadBody = fetch_slip!(|shown| each_row(shown, 1, |partition| partition[4] = 0));
static ONE_PAIR_MORE: ReadBody = fetch_slip!(|shown| shown.tables[2].extend([0, 0]));
static STABLE_FOR_WATERMARK: ReadBody = fetch_slip!(|shown| each_row(shown, 1, |partition| partition.swap(2, 3)));
static ZERO_FOR_NO_STABLE: ReadBody =
    fetch_slip!(|shown| each_row(shown, 1, |partition| partition[3] = partition[3].max(0)));
static ERROR_UNSIGNED: ReadBody = fetch_slip!(|shown| each_row(shown, 1, |partition| partition[1] &= 0xffff));
static RECORDS_EARLY: ReadBody = fetch_slip!(|shown| each_row(shown, 1, |partition| partition[5] -= 1));
static RECORDS_CUT: ReadBody = fetch_slip!(|shown| each_row(shown, 1, |partition| partition[6] -= partition[6].min(1)));
static PARTITIONS_LEFT_OVER: ReadBody = fetch_slip!(|shown| each_row(shown, 0, |topic| topic[2] -= topic[2].min(1)));
static TOPICS_MISCOUNTED: ReadBody = fetch_slip!(|shown| shown.own[1] = Word::Number(1));
static STABLE_AT_THREE: ReadBody = ReadBody {
    model: |version, whole, message| fetch::read_response(if version == 3 { 4 } else { version }, whole, message),
    ..FETCH_READ
};
static NO_THROTTLE_AT_ONE: ReadBody = ReadBody {
    model: |version, whole, message| fetch::read_response(if version == 1 { 0 } else { version }, whole, message),
    ..FETCH_READ
};

fn fetch_bodies(call: &'static ReadBody) -> impl Iterator<Item = Case> {
    (0..3000).map(move |index| {
        let mut rng = Rng::new(11, index);
        let version = rng.below(5) as i16;
        let message = fetched::response_bytes(&mut rng, version);
        Case::ReadBody { call, version, rooms: vec![64; 3], message }
    })
}

#[test]
fn slips_in_reading_fetch_are_noticed() {
    assert_eq!(complaints(fetch_bodies(&FETCH_READ)), 0);
    let slips = [
        &PAIRS_SWAPPED,
        &PAIRS_LEFT_OVER,
        &ONE_PAIR_MORE,
        &STABLE_FOR_WATERMARK,
        &ZERO_FOR_NO_STABLE,
        &ERROR_UNSIGNED,
        &RECORDS_EARLY,
        &RECORDS_CUT,
        &PARTITIONS_LEFT_OVER,
        &TOPICS_MISCOUNTED,
        &STABLE_AT_THREE,
        &NO_THROTTLE_AT_ONE,
    ];
    for (which, call) in slips.into_iter().enumerate() {
        assert!(complaints(fetch_bodies(call)) > 20, "slip {which}");
    }
}

/// The writer of a Fetch request that is given some own words otherwise where they are unset.
macro_rules! fetch_unset {
    ($word:expr, $number:expr) => {
        WriteBody {
            model: |version, given| {
                let mut own = given.own.to_vec();
                own[$word] = Own::Number(own[$word].or($number));
                fetch::write_request(version, &Given { own: &own, ..*given })
            },
            ..FETCH_REQUEST_WRITE
        }
    };
}

static NO_BYTES_FOR_ALL: WriteBody = fetch_unset!(3, 0);
static COMMITTED_FOR_UNSET: WriteBody = fetch_unset!(4, 1);
static LEVEL_AT_THREE: WriteBody = WriteBody {
    model: |version, given| fetch::write_request(if version == 3 { 4 } else { version }, given),
    ..FETCH_REQUEST_WRITE
};
static LEAST_FOR_WAIT: WriteBody = WriteBody {
    model: |version, given| {
        let mut own = given.own.to_vec();
        own.swap(1, 2);
        fetch::write_request(version, &Given { own: &own, ..*given })
    },
    ..FETCH_REQUEST_WRITE
};
static PARTITIONS_REVERSED: WriteBody = WriteBody {
    model: |version, given| {
        let mut tables = given.tables.to_vec();
        tables[1] = given.rows(1, 3).into_iter().rev().flatten().copied().collect();
        fetch::write_request(version, &Given { tables: &tables, ..*given })
    },
    ..FETCH_REQUEST_WRITE
};

#[test]
fn slips_in_writing_fetch_are_noticed() {
    let requests = |call| complaints(written(call, fetched::requests::request));
    assert_eq!(requests(&FETCH_REQUEST_WRITE), 0);
    let slips = [&NO_BYTES_FOR_ALL, &COMMITTED_FOR_UNSET, &LEVEL_AT_THREE, &LEAST_FOR_WAIT, &PARTITIONS_REVERSED];
    for (which, call) in slips.into_iter().enumerate() {
        assert!(requests(call) > 20, "slip {which}");
    }
}

#[test]
fn parts_of_a_section_are_the_section() {
    let section = Section::new(103, |index| Case::Agree(vec![index as i64]));
    let all = |parts: u64| -> Vec<i64> {
        let cases = (0..parts).flat_map(|part| section.part(part, parts));
        cases.map(|case| if let Case::Agree(cells) = case { cells[0] } else { -1 }).collect()
    };
    assert_eq!(all(1), (0..103).collect::<Vec<i64>>());
    assert_eq!(all(7), all(1));
    assert_eq!(all(200), all(1));
}

/// The start of the host in the last broker with that node.
fn last_host(version: i16, node: i64, message: &[u8]) -> Option<usize> {
    let shown = metadata::read_response(version, false, message).ok()?;
    shown.tables[0].chunks_exact(7).rfind(|broker| broker[0] == node).map(|broker| broker[1] as usize)
}

fn host(version: i16, node: i64, message: &[u8]) -> Option<usize> {
    match metadata::host(version, node, message).ok()?.own[0] {
        Word::Part(start, _) => Some(start),
        _ => None,
    }
}

#[test]
fn lookups_agree_and_tell_slips_apart() {
    let cases: Vec<Case> = (0..6000).map(|index| made::host(&mut Rng::new(10, index))).collect();
    let telling = |slip: fn(i16, i64, &[u8]) -> Option<usize>| {
        let differs = |case: &&Case| match case {
            Case::Host { version: version @ 0..=4, node, message } => {
                slip(*version, *node, message) != host(*version, *node, message)
            }
            _ => false,
        };
        cases.iter().filter(differs).count()
    };
    assert!(telling(last_host) > 20);
    assert!(telling(|version, node, message| host(version, node as i32 as i64, message)) > 20);
    assert!(telling(|version, node, message| host(version, node.wrapping_add(1), message)) > 20);
    assert_eq!(complaints(cases.into_iter()), 0);
}
