//! Frames, and the numbers of headers.
use super::{is_assertion, is_same_read, is_same_written, number_of, of_rules, told, words, Verdict, Voice};
use crate::calls::{HeaderNumber, ReadFrame, WriteFrame};
use crate::line::{Answer, Refusal, Word};
use crate::model::frames::{framed, in_order, judge_header, size, spell, stored, Headers, SIZE};
use crate::model::laid;
use crate::model::write::Given;
use crate::rust::frames::{is_above, stop, Stop};
use crate::rust::{self, Silence};

/// Request header 0, which the Rust has.
const NO_CLIENT: u8 = 13;
/// A size over the limit, and too few bytes.
const TOO_LARGE_AND_CUT: u8 = 14;
/// Header numbers of versions that no message has here.
const LATER_VERSIONS: u8 = 15;

/// The entry of an unknown header number.
fn entry_of_header(known: Headers, header: i64) -> Option<u8> {
    match header {
        h if h < 0 => Some(1),
        h if h > known.last => Some(2),
        h if h < known.first => Some(NO_CLIENT),
        _ => None,
    }
}

/// The number that the Rust takes: below 0 it does as at 0, and above the last it stops.
fn nearest(known: Headers, header: i64) -> i16 {
    header.clamp(0, known.last) as i16
}

pub fn judge_read<'a>(call: &ReadFrame, header: i64, room: usize, message: &'a [u8]) -> Verdict<'a> {
    let outside = entry_of_header(call.headers, header);
    let read = (call.model)(nearest(call.headers, header), message);
    let judged = in_order(call.headers, header, &read, room);
    let entry = outside.or(match number_of(&judged) {
        10 => Some(7),
        14 if stop_of(&read, message) == Some(Stop::End) => Some(TOO_LARGE_AND_CUT),
        _ => None,
    });
    let reply = judged.map(words);
    let tables = judged.ok().map(|shown| shown.tables.clone());
    let answer = Answer { reply, lent: laid(&[room], tables) };
    let Ok(asked) = i16::try_from(header) else {
        return Verdict { answer, voice: Voice::RulesAlone, entry, complaint: None };
    };
    let heard = (call.rust)(asked, message);
    let (expected, stopped) = (stop_of(&read, message), stop(message));
    let spelled = read.map(|shown| (spell(&shown, message), shown.used));
    let same = match outside {
        // The Rust stops at the header, if it comes so far.
        Some(2) if expected.is_none() => is_assertion(&heard, call.headers.last as i16),
        _ => is_same_read(&spelled, &heard),
    };
    let complaint = (!same || stopped != expected).then(|| format!("{}, frame.rs {stopped:?}", told(&heard)));
    Verdict { answer, voice: Voice::Rust, entry, complaint }
}

/// What frame.rs says to bytes that the rules refuse before the header, which is at 0: where the size is over the limit it
/// reads as many bytes first.
fn stop_of<T>(read: &Result<T, Refusal>, message: &[u8]) -> Option<Stop> {
    let no = read.as_ref().err().filter(|no| no.place < SIZE)?;
    let refused = size(message).filter(|_| no.number == 14);
    Some(match refused {
        Some(..0) => Stop::Negative,
        Some(size) if (message.len() - SIZE) as i64 >= size => Stop::TooLarge,
        _ => Stop::End,
    })
}

pub fn judge_written<'a>(call: &WriteFrame, room: usize, header: i64, given: &Given, body: &[u8]) -> Verdict<'a> {
    let outside = entry_of_header(call.headers, header);
    let made = (call.model)(nearest(call.headers, header), given).map(|header| framed(&header, body));
    let offered = judge_header(call.headers, header).and(made.as_deref().map_err(|no| *no));
    let (reply, output) = stored(call.headers.message, offered, room);
    let entry = match number_of(&reply) {
        2 => Some(5),
        10 => Some(7),
        _ => None,
    };
    let answer = Answer { reply, lent: vec![output] };
    match heard_written(call, header, given, body, number_of(&made)) {
        Err(_) => Verdict { answer, voice: Voice::RulesAlone, entry: outside.or(Some(12)), complaint: None },
        Ok(heard) => {
            let same = match outside {
                Some(2) => is_assertion(&heard, call.headers.last as i16),
                _ => is_same_written(&made, &heard),
            };
            Verdict { answer, voice: Voice::Rust, entry: outside.or(entry), complaint: (!same).then(|| told(&heard)) }
        }
    }
}

/// Tables that contradict themselves have no counterpart among the Rust's values, and neither has a number of more than 16 bits.
fn heard_written(
    call: &WriteFrame,
    header: i64,
    given: &Given,
    body: &[u8],
    number: u8,
) -> Result<rust::Written, Silence> {
    let header = i16::try_from(header).map_err(|_| Silence::CannotHold)?;
    if number == 13 {
        return Err(Silence::CannotHold);
    }
    (call.rust)(header, given, body)
}

/// Neither call refuses. The Rust says from which version on an API has tagged fields. The rules do so for the versions that
/// are here, and the Rust may differ from them above its own last version only.
pub fn judge_number<'a>(call: &HeaderNumber, key: i64, version: i64) -> Verdict<'a> {
    let header = (call.model)(key, version);
    let alone = of_rules(vec![Word::Number(header.into())]);
    let (Ok(key), Ok(version)) = (i16::try_from(key), i16::try_from(version)) else {
        return Verdict { entry: Some(12), ..alone };
    };
    let Some(theirs) = (call.rust)(key, version) else { return alone };
    let differs = theirs != header;
    let above = is_above(key, version);
    let complaint = (differs && !above).then(|| format!("the Rust says {theirs}"));
    Verdict { voice: Voice::Rust, entry: (differs && above).then_some(LATER_VERSIONS), complaint, ..alone }
}
