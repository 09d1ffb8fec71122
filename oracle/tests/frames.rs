//! Frames: the inputs of docs/DIFFERENCES.md, places, what comes back, what follows a frame, and whether slips are noticed.
use oracle::calls::{ReadFrame, WriteFrame, READ_FRAMES, WRITE_FRAMES};
use oracle::case::Case;
use oracle::judge::{judge, Voice};
use oracle::line::{Refusal, Word};
use oracle::make::frames::ends::{client, framed, good, sized, BEFORE_CLIENT};
use oracle::make::frames::{frame_bytes, known, read, stored::stored, write, written, Side, SIDES};
use oracle::make::{letters, rng::Rng};
use oracle::model::frames::{self, judge_header, SIZE};
use oracle::model::write::{Given, Own};
use oracle::model::{Shown, LIMIT};
use oracle::rust::frames::{stop, Stop};
use oracle::rust::{self, Heard};
use std::collections::BTreeSet;

fn asked(case: &Case) -> String {
    let mut line = vec![];
    case.put(&mut line);
    String::from_utf8(line).unwrap()
}

fn answered(case: &Case) -> String {
    let mut line = vec![];
    judge(case).answer.put(&mut line);
    String::from_utf8(line).unwrap()
}

fn parsed(line: &str) -> Case {
    Case::parse(line.as_bytes()).unwrap_or_else(|| panic!("{line}"))
}

/// The answer begins so, the input falls under this entry, and the Rust does what the entry says.
fn differs(line: &str, entry: impl Into<Option<u8>>, begins: &str) {
    let case = parsed(line);
    let verdict = judge(&case);
    assert_eq!(verdict.entry, entry.into(), "{line}");
    assert_eq!(verdict.complaint, None, "{line}");
    assert!(answered(&case).starts_with(begins), "{line}: {}", answered(&case));
}

const NO_CLIENT: [u8; 12] = [0, 0, 0, 8, 0, 18, 0, 3, 0, 0, 0, 7];
const RESPONSE: [u8; 8] = [0, 0, 0, 4, 0, 0, 0, 7];

#[test]
fn differences_in_header_numbers() {
    differs("request_frame_read 0 0 000000080012000300000007", 13, "no 1 0 0");
    differs("request_frame_write 14 0 - 18 3 7 absent -1 - -", 13, "no 1 0 0");
    for header in [-1, -32_768] {
        differs(&format!("request_frame_read {header} 0 000000080012000300000007"), 1, "no 1 0 0");
        differs(&format!("response_frame_read {header} 0 0000000400000007"), 1, "no 1 0 0");
        differs(&format!("request_frame_write 14 {header} - 18 3 7 absent -1 - -"), 1, "no 1 0 0");
        differs(&format!("response_frame_write 14 {header} - 7 -1 - -"), 1, "no 1 0 0");
        assert!(matches!(rust::frames::read_request(header, &NO_CLIENT), Heard::Gave((_, 12))));
        assert!(matches!(rust::frames::read_response(header, &RESPONSE), Heard::Gave((_, 8))));
    }
    differs("request_frame_read 3 0 000000080012000300000007", 2, "no 1 0 0");
    differs("response_frame_read 2 0 0000000400000007", 2, "no 1 0 0");
    differs("request_frame_write 14 3 - 18 3 7 absent -1 - -", 2, "no 1 0 0");
    differs("response_frame_write 14 2 - 7 -1 - -", 2, "no 1 0 0");
    assert!(matches!(rust::frames::read_request(3, &NO_CLIENT), Heard::Panicked(_)));
    assert!(matches!(rust::frames::read_response(2, &RESPONSE), Heard::Panicked(_)));
    // A frame that is cut is refused before the header is looked at.
    assert_eq!(rust::frames::read_request(3, &NO_CLIENT[..11]), Heard::Refused);
    differs("request_frame_read 3 0 0000000800120003000000", 2, "no 1 0 0");
}

#[test]
fn differences_in_sizes() {
    differs("response_frame_read 0 0 00100001,00*20", 14, "no 14 0 0");
    differs("response_frame_read 0 0 7fffffff", 14, "no 14 0 0");
    differs("response_frame_read 0 0 00100001,00*1048577", None, "no 14 0 0");
    differs("response_frame_read 0 0 ffffffff", None, "no 14 0 0");
    differs("response_frame_read 0 0 00100000,00*20", None, "no 3 0 0");
    differs("response_frame_read 0 0 00100000,00*1048576", None, "ok 1048580 ");
    assert_eq!(stop(&sized(LIMIT as i64 + 1, &[0; 20])), Some(Stop::End));
    assert_eq!(stop(&sized(LIMIT as i64 + 1, &vec![0; LIMIT + 1])), Some(Stop::TooLarge));
    assert_eq!(stop(&sized(-1, &[])), Some(Stop::Negative));
    assert_eq!(stop(&sized(0, &[])), None);
    differs("response_frame_write 1048640 0 - 7 -1 - 62*1048573", 5, "no 2 0 0 ");
    differs("response_frame_write 1048640 0 - 7 -1 - 62*1048572", None, "ok 1048580 ");
    differs("request_frame_write 13 1 - 18 3 7 null -1 - -", 7, "no 10 0 14 ");
    differs("response_frame_read 1 2 000000080000000701050141", 7, "no 10 0 1 ");
}

#[test]
fn differences_in_what_can_be_said() {
    differs("request_frame_write 20 1 c080 18 3 7 0:2 -1 - -", 12, "no 7 0 0 ");
    differs("request_frame_write 20 1 - 70000 3 7 null -1 - -", 12, "no 11 0 0 ");
    differs("response_frame_write 20 1 - 7 1 - -", 12, "no 13 0 0 ");
    differs("request_frame_write 20 1 61*32768 18 3 7 0:32768 -1 - -", None, "no 11 0 0 ");
    differs("request_frame_read 65537 0 0000000a0012000300000007ffff", 2, "no 1 0 0");
    assert_eq!(judge(&parsed("request_frame_read 65537 0 -")).voice, Voice::RulesAlone);
}

#[test]
fn differences_in_headers_of_later_versions() {
    for (key, last, first) in [(3, 4, 9), (1, 4, 12), (0, 7, 9)] {
        for version in 0..first {
            differs(&format!("request_number {key} {version}"), None, "ok 1");
            differs(&format!("response_number {key} {version}"), None, "ok 0");
        }
        assert!(last < first);
        differs(&format!("request_number {key} {first}"), 15, "ok 1");
        differs(&format!("response_number {key} {first}"), 15, "ok 0");
    }
    for version in 0..=3 {
        differs(&format!("request_number 18 {version}"), None, if version == 3 { "ok 2" } else { "ok 1" });
        differs(&format!("response_number 18 {version}"), None, "ok 0");
    }
    differs("response_number 18 32766", None, "ok 0");
    differs("response_number 18 32767", 15, "ok 0");
    differs("request_number 65554 3", 12, "ok 1");
    assert_eq!(judge(&parsed("request_number 2 3")).voice, Voice::RulesAlone);
}

/// A frame cut anywhere is 3 at 0. One whose size says less has its header end there: 3 at the start of the primitive.
#[test]
fn cut_frames_and_short_sizes() {
    for (side, number) in known() {
        let frame = framed(&good(side, number));
        for length in 0..frame.len() {
            let no = (side.read().model)(number as i16, &frame[..length]).expect_err("a frame that is cut");
            assert_eq!(no, Refusal::at(side.read().headers.message, 3, 0));
        }
    }
    // Size, the places at which primitives start, and the first byte after the header.
    let starts = [
        (Side::Request, 1, vec![4, 6, 8, 12, 18]),
        (Side::Request, 2, vec![4, 6, 8, 12, 18, 19, 20, 22, 24, 25, 27, 31]),
        (Side::Response, 0, vec![4, 8]),
        (Side::Response, 1, vec![4, 8, 9, 10, 12, 14, 15, 17, 21]),
    ];
    for (side, number, starts) in starts {
        let contents = good(side, number);
        for size in 0..=contents.len() {
            let frame = sized(size as i64, &contents);
            let read = (side.read().model)(number as i16, &frame).map(|shown| shown.used);
            let (header, end) = (*starts.last().unwrap(), SIZE + size);
            let at = starts.iter().rfind(|start| **start <= end).unwrap();
            let expected = if end >= header { Ok(end) } else { Err((3, *at, 0)) };
            assert_eq!(read.map_err(|no| (no.number, no.place, no.need)), expected, "{side:?} {number} {size}");
        }
    }
}

#[test]
fn what_follows_a_frame_has_no_part() {
    for index in 0..20_000 {
        let rng = &mut Rng::new(15, index);
        let side = rng.pick(&SIDES);
        let header = rng.below(3) as i16;
        let message = frame_bytes(rng, side, header.into());
        let more = [message.clone(), rng.data(9), frame_bytes(rng, side, header.into())].concat();
        let model = side.read().model;
        match model(header, &message) {
            Err(Refusal { number: 3, place: 0, .. }) => {}
            alone => assert_eq!(alone, model(header, &more)),
        }
    }
}

/// Of a header that was written: what is read of it. Absent fields of the header are absent, unset tags are none, an unset
/// client name is null.
fn expected<'a>(side: Side, header: i64, own: &[Own], lent: &'a [u8]) -> Vec<Word<'a>> {
    let number = |own: &Own| Word::Number(own.or(0).into());
    let [numbers @ .., tags] = own else { unreachable!() };
    let numbers_only = if side == Side::Request { &numbers[..3] } else { numbers };
    let mut words: Vec<Word> = numbers_only.iter().map(number).collect();
    match numbers.get(3) {
        Some(Own::Part(start, length)) => words.push(Word::Part(14, &lent[*start as usize..][..*length as usize])),
        Some(_) => words.push(Word::Null),
        None => {}
    }
    let has_tags = header == side.read().headers.last;
    words.push(Word::Number(if has_tags { tags.or(0).max(0).into() } else { -1 }));
    words
}

#[test]
fn written_frames_come_back() {
    let mut seen = 0;
    for index in 0..20_000 {
        let case = write(&mut Rng::new(16, index));
        let Case::WriteFrame { call, header, lent, own, tags, body, .. } = &case else { unreachable!() };
        let side = if call.name.starts_with("request") { Side::Request } else { Side::Response };
        let Ok(made) = (call.model)((*header).clamp(0, 2) as i16, &case.given().unwrap()) else { continue };
        if judge_header(call.headers, *header).is_err() {
            continue;
        }
        let frame = frames::framed(&made, body);
        let shown = (side.read().model)(*header as i16, &frame).expect("a frame that was written");
        assert_eq!(shown.used, frame.len());
        let Some((Word::Part(start, rest), words)) = shown.own.split_last() else { unreachable!() };
        assert_eq!((*start, *rest), (SIZE + made.len(), &body[..]), "{}", asked(&case));
        assert_eq!(words, expected(side, *header, own, lent), "{}", asked(&case));
        let rows = shown.tables[0].chunks_exact(3);
        for (row, given) in rows.zip(tags.chunks_exact(3)) {
            let part = |bytes: &[u8], row: &[i64]| bytes[row[1] as usize..][..row[2] as usize].to_vec();
            assert_eq!((row[0], part(&frame, row)), (given[0], part(lent, given)));
        }
        seen += 1;
    }
    assert!(seen > 10_000, "{seen}");
}

#[test]
fn places_of_client_names_are_those_of_the_standard_library() {
    for (turn, text) in letters::texts().iter().enumerate() {
        let wrong = std::str::from_utf8(&text.contents).expect_err("a text that is not well-formed");
        for number in [1, 2] {
            let case = client(text, number, turn as u64);
            let verdict = judge(&case);
            let no = verdict.answer.reply.expect_err("a text that is refused");
            let place = BEFORE_CLIENT + 2 + wrong.valid_up_to();
            assert_eq!((no.number, no.place, no.need), (7, place, 0), "{}", asked(&case));
            assert_eq!(verdict.complaint, None, "{}", asked(&case));
        }
    }
}

#[test]
fn stored_ones_have_each_call_and_each_number() {
    let list = stored();
    assert!((150..=250).contains(&list.len()), "{}", list.len());
    let kinds: BTreeSet<(&str, u8)> = list.iter().map(|case| (case.name(), judge(case).number())).collect();
    for (call, numbers) in [
        ("request_frame_read", &[0, 1, 3, 4, 5, 7, 10, 14][..]),
        ("response_frame_read", &[0, 1, 3, 5, 10, 14]),
        ("request_frame_write", &[0, 1, 7, 10, 11, 13]),
        ("response_frame_write", &[0, 1, 2, 10, 11, 13]),
        ("request_number", &[0]),
        ("response_number", &[0]),
    ] {
        assert!(numbers.iter().all(|number| kinds.contains(&(call, *number))), "{call}");
    }
    assert!(list.iter().all(|case| asked(case).len() < 700 && answered(case).len() < 700));
    assert!(list.iter().all(|case| judge(case).complaint.is_none()));
}

/// The reader of a frame, but for its model.
macro_rules! slip {
    ($rank:expr, $model:expr) => {
        ReadFrame { model: $model, ..READ_FRAMES[$rank] }
    };
}

type Read<'a> = Result<Shown<'a>, Refusal>;

/// A frame whose size says that it has all the bytes that are lent.
fn to_the_end<'a>(header: i16, bytes: &'a [u8], model: fn(i16, &[u8]) -> Read<'_>) -> Read<'a> {
    let used = model(header, bytes)?.used;
    let whole = sized((bytes.len() - SIZE) as i64, &bytes[SIZE..]).leak();
    model(header, whole).map(|shown| Shown { used, ..shown })
}

static OVER_ALL_BYTES: [ReadFrame; 2] = [
    slip!(0, |header, bytes| to_the_end(header, bytes, frames::read_request)),
    slip!(1, |header, bytes| to_the_end(header, bytes, frames::read_response)),
];
static SIZE_NOT_USED: [ReadFrame; 2] = [
    slip!(0, |header, bytes| frames::read_request(header, bytes)
        .map(|shown| Shown { used: shown.used - SIZE, ..shown })),
    slip!(1, |header, bytes| frames::read_response(header, bytes)
        .map(|shown| Shown { used: shown.used - SIZE, ..shown })),
];
static NULL_IS_EMPTY: [ReadFrame; 2] = [
    slip!(0, |header, bytes| {
        let mut shown = frames::read_request(header, bytes)?;
        shown.own.iter_mut().filter(|word| **word == Word::Null).for_each(|word| *word = Word::Part(0, &[]));
        Ok(shown)
    }),
    slip!(1, frames::read_response),
];
static TAGS_ALWAYS: [ReadFrame; 2] =
    [slip!(0, |_, bytes| frames::read_request(2, bytes)), slip!(1, |_, bytes| frames::read_response(1, bytes))];
static BODY_EARLY: [ReadFrame; 2] = [
    slip!(0, |header, bytes| frames::read_request(header, bytes).map(|shown| body_early(shown, bytes))),
    slip!(1, |header, bytes| frames::read_response(header, bytes).map(|shown| body_early(shown, bytes))),
];
static NEGATIVE_IS_CUT: [ReadFrame; 2] = [
    slip!(0, |header, bytes| frames::read_request(header, bytes).map_err(as_cut)),
    slip!(1, |header, bytes| frames::read_response(header, bytes).map_err(as_cut)),
];

fn as_cut(no: Refusal) -> Refusal {
    if no.number == 14 {
        Refusal::at(no.message, 3, 0)
    } else {
        no
    }
}

fn body_early<'a>(mut shown: Shown<'a>, bytes: &'a [u8]) -> Shown<'a> {
    if let Some(Word::Part(start, part)) = shown.own.last_mut() {
        *part = &bytes[*start - 1..][..part.len()];
        *start -= 1;
    }
    shown
}

fn complaints(cases: impl Iterator<Item = Case>) -> usize {
    cases.filter(|case| judge(case).complaint.is_some()).count()
}

fn frames_read(calls: &'static [ReadFrame; 2]) -> impl Iterator<Item = Case> {
    (0..6000).map(move |index| match read(&mut Rng::new(17, index)) {
        Case::ReadFrame { call, header, room, message } => {
            let call = &calls[usize::from(call.name.starts_with("response"))];
            Case::ReadFrame { call, header, room, message }
        }
        _ => unreachable!(),
    })
}

#[test]
fn slips_in_reading_frames_are_noticed() {
    assert_eq!(complaints(frames_read(&READ_FRAMES)), 0);
    let slips = [&OVER_ALL_BYTES, &SIZE_NOT_USED, &NULL_IS_EMPTY, &TAGS_ALWAYS, &BODY_EARLY, &NEGATIVE_IS_CUT];
    for (which, calls) in slips.into_iter().enumerate() {
        assert!(complaints(frames_read(calls)) > 20, "slip {which}");
    }
}

/// The writer of a request's frame, but for its model.
const fn slip_in_writing(model: fn(i16, &Given) -> Result<Vec<u8>, Refusal>) -> WriteFrame {
    WriteFrame { model, ..WRITE_FRAMES[0] }
}

static EMPTY_FOR_NULL: WriteFrame = slip_in_writing(|header, given| {
    let mut own = given.own.to_vec();
    own.iter_mut().filter(|own| matches!(own, Own::Null)).for_each(|own| *own = Own::Part(0, 0));
    frames::write_request(header, &Given { own: &own, ..*given })
});
static TAGS_AT_ONE: WriteFrame = slip_in_writing(|header, given| frames::write_request(2 * header.min(1), given));
static VERSION_FIRST: WriteFrame = slip_in_writing(|header, given| {
    let mut own = given.own.to_vec();
    own.swap(0, 1);
    frames::write_request(header, &Given { own: &own, ..*given })
});
static NEVER_TOO_LONG: WriteFrame = slip_in_writing(|header, given| {
    frames::write_request(header, given).or_else(|no| if no.number == 11 { Ok(vec![]) } else { Err(no) })
});

/// The ends, and some that look random.
fn requests_written(call: &'static WriteFrame) -> impl Iterator<Item = Case> {
    let ends: Vec<Case> = written::ends().part(0, 1).collect();
    let random = (0..6000).map(|index| write(&mut Rng::new(18, index)));
    ends.into_iter().chain(random).filter_map(move |case| match case {
        Case::WriteFrame { call: made, room, header, lent, own, tags, body } => {
            (made.name == call.name).then_some(Case::WriteFrame { call, room, header, lent, own, tags, body })
        }
        _ => unreachable!(),
    })
}

#[test]
fn slips_in_writing_frames_are_noticed() {
    assert_eq!(complaints(requests_written(&WRITE_FRAMES[0])), 0);
    let slips = [&EMPTY_FOR_NULL, &TAGS_AT_ONE, &VERSION_FIRST, &NEVER_TOO_LONG];
    for (which, call) in slips.into_iter().enumerate() {
        assert!(complaints(requests_written(call)) >= 20, "slip {which}");
    }
}

/// 2 counts header and body, and 10 all bytes.
#[test]
fn the_limit_does_not_count_the_size() {
    for (side, header) in known() {
        for (together, begins) in [(LIMIT, "ok 1048580 "), (LIMIT + 1, "no 2 0 0 ")] {
            let frame = written::filled(side, header, together);
            assert!(answered(&frame.case(header, 1_048_640)).starts_with(begins));
        }
        let exact = written::filled(side, header, LIMIT);
        assert!(answered(&exact.case(header, LIMIT + 3)).starts_with("no 10 0 1048580 "));
        assert!(answered(&exact.case(header, LIMIT + 4)).starts_with("ok 1048580 "));
    }
}
