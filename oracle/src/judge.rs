//! The answer to a case by the rules, held against what the Rust says. A disagreement is either an entry of
//! docs/DIFFERENCES.md, and then the Rust does what that entry says, or it is a complaint.
mod frames;

use crate::calls::{ReadBody, WriteBody};
use crate::case::Case;
use crate::line::{Answer, Refusal, Word};
use crate::model::primitives::Primitive;
use crate::model::write::Given;
use crate::model::{agreement, in_order, judge_version, laid, metadata, names, primitives, stored, text, write, Shown};
use crate::rust::{self, Heard, Silence};
use crate::token::Token;

/// Who was asked beside the rules.
#[derive(Debug, Clone, Copy, PartialEq, Eq)]
pub enum Voice {
    Rust,
    StandardLibrary,
    RulesAlone,
}

pub struct Verdict<'a> {
    pub answer: Answer<'a>,
    pub voice: Voice,
    /// The entry of docs/DIFFERENCES.md that the input falls under.
    pub entry: Option<u8>,
    /// What the Rust does that neither the rules nor an entry say.
    pub complaint: Option<String>,
}

impl Verdict<'_> {
    /// `ok` is 0.
    pub fn number(&self) -> u8 {
        number_of(&self.answer.reply)
    }
}

pub fn judge(case: &Case) -> Verdict<'_> {
    match case {
        Case::WellFormed(bytes) => {
            let library = std::str::from_utf8(bytes).map_or_else(|e| e.valid_up_to(), str::len);
            of_library(text::well_formed(bytes), library)
        }
        Case::IsText(bytes) => of_library(text::is_text(bytes).into(), std::str::from_utf8(bytes).is_ok().into()),
        Case::Agree(cells) => of_rules(agreement::agree(cells).into_iter().map(|n| Word::Number(n.into())).collect()),
        Case::Read { call, message } => judge_read(call.primitive, message),
        Case::Write { call, room, value } => {
            let made = write::write(call.primitive, value);
            judge_written(names::ALONE, &made, *room, (0, None), false, || {
                rust::primitives::write(call.primitive, value)
            })
        }
        Case::ReadBody { call, version, rooms, message } => judge_body(call, *version, rooms, message),
        Case::Host { version, node, message } => judge_host(*version, *node, message),
        Case::WriteBody { call, room, version, .. } => {
            judge_body_written(call, *room, *version, &case.given().expect("a write from tables"))
        }
        Case::ReadFrame { call, header, room, message } => frames::judge_read(call, *header, *room, message),
        Case::WriteFrame { call, room, header, body, .. } => {
            frames::judge_written(call, *room, *header, &case.given().expect("a header to write"), body)
        }
        Case::HeaderNumber { call, key, version } => frames::judge_number(call, *key, *version),
    }
}

fn of_rules(words: Vec<Word<'_>>) -> Verdict<'_> {
    let answer = Answer { reply: Ok(words), lent: vec![] };
    Verdict { answer, voice: Voice::RulesAlone, entry: None, complaint: None }
}

fn of_library<'a>(rules: usize, library: usize) -> Verdict<'a> {
    let complaint = (rules != library).then(|| format!("the standard library says {library}"));
    Verdict { voice: Voice::StandardLibrary, complaint, ..of_rules(vec![Word::Number(rules as i128)]) }
}

/// Accepted or not, value and bytes used. The value is spelled from what the answer shows.
fn is_same_read(rules: &Result<(Vec<Token>, usize), Refusal>, heard: &rust::Read) -> bool {
    match (rules, heard) {
        (Ok((tokens, used)), Heard::Gave((theirs, taken))) => tokens == theirs && used == taken,
        (Err(_), Heard::Refused) => true,
        _ => false,
    }
}

fn is_same_written(rules: &Result<Vec<u8>, Refusal>, heard: &rust::Written) -> bool {
    match (rules, heard) {
        (Ok(bytes), Heard::Gave(theirs)) => bytes == theirs,
        (Err(_), Heard::Refused) => true,
        _ => false,
    }
}

/// Entry 2: the assertion on the version, and no other panic.
fn is_assertion<T>(heard: &Heard<T>, last: i16) -> bool {
    matches!(heard, Heard::Panicked(text) if *text == format!("assertion failed: v <= {last}"))
}

/// What was heard, cut to a length that can be shown.
fn told<T: std::fmt::Debug>(heard: &Heard<T>) -> String {
    format!("the Rust says {heard:?}").chars().take(300).collect()
}

/// 0 for an answer that is accepted.
fn number_of<T>(reply: &Result<T, Refusal>) -> u8 {
    reply.as_ref().err().map_or(0, |no| no.number)
}

fn judge_read(primitive: Primitive, message: &[u8]) -> Verdict<'_> {
    let rules = primitives::read(primitive, message);
    let reply = in_order(names::ALONE, Ok(()), message.len(), &rules, false, &[], &[]).map(words);
    let entry = match number_of(&reply) {
        2 => Some(5),
        6 if matches!(primitive, Primitive::Bytes(..)) => Some(3),
        _ => None,
    };
    let mut verdict = Verdict { entry, answer: Answer { reply, lent: vec![] }, ..of_rules(vec![]) };
    let spelled = rules.map(|shown| (primitives::spell(&shown, message), shown.used));
    if is_many(primitive, &spelled) || !rust::primitives::is_compared(primitive) {
        return verdict;
    }
    verdict.voice = Voice::Rust;
    let heard = rust::primitives::read(primitive, message);
    // Entry 3: refused by a release build, a panic in a debug build.
    let below_zero = entry == Some(3) && matches!(&heard, Heard::Panicked(text) if text.contains("overflow"));
    if !is_same_read(&spelled, &heard) && !below_zero {
        verdict.complaint = Some(told(&heard));
    }
    verdict
}

/// A count whose elements the Rust would be long about.
fn is_many(primitive: Primitive, spelled: &Result<(Vec<Token>, usize), Refusal>) -> bool {
    let most = rust::primitives::MOST_ELEMENTS.into();
    let large = |tokens: &[Token]| matches!(tokens, [Token::Number(n)] if *n > most);
    matches!(primitive, Primitive::Count(_)) && spelled.as_ref().is_ok_and(|(tokens, _)| large(tokens))
}

fn words<'a>(shown: &Shown<'a>) -> Vec<Word<'a>> {
    let used = Word::Number(shown.used as i128);
    std::iter::once(used).chain(shown.own.iter().cloned()).collect()
}

/// The entry of a call with a version outside its range.
fn entry_of_version(last: Option<i16>, version: i16) -> Option<u8> {
    last.and_then(|last| match version {
        v if v < 0 => Some(1),
        v if v > last => Some(2),
        _ => None,
    })
}

fn judge_body<'a>(call: &ReadBody, version: i16, rooms: &[usize], message: &'a [u8]) -> Verdict<'a> {
    let last = call.last.unwrap_or(0);
    let outside = entry_of_version(call.last, version);
    // Below the range the Rust reads as at 0; above it never comes to the bytes.
    let at = version.clamp(0, last);
    let read = (call.model)(at, call.whole, message);
    let known = judge_version(call.message, last, version);
    let judged = in_order(call.message, known, message.len(), &read, call.whole, call.widths, rooms);
    let number = number_of(&judged);
    let reply = judged.map(words);
    let fronts = judged.ok().map(|shown| shown.tables.clone());

    // The Rust has prefix reads only.
    let prefix = match &read {
        Err(no) if no.number == 8 => (call.model)(at, false, message),
        _ => read,
    };
    let spelled = prefix.map(|shown| ((call.spell)(&shown, message), shown.used));
    let heard = (call.rust)(version, message);
    let same = is_same_at(outside, last, &spelled, &heard);
    let entry = match number {
        2 => Some(5),
        8 if spelled.is_ok() => Some(9),
        9 => Some(10),
        10 => Some(7),
        _ => None,
    };
    Verdict {
        answer: Answer { reply, lent: laid(rooms, fronts) },
        voice: Voice::Rust,
        entry: outside.or(entry),
        complaint: (!same).then(|| told(&heard)),
    }
}

/// Above the range the Rust stops before the first byte; elsewhere it reads what the rules do.
fn is_same_at(
    outside: Option<u8>,
    last: i16,
    rules: &Result<(Vec<Token>, usize), Refusal>,
    heard: &rust::Read,
) -> bool {
    match outside {
        Some(2) => is_assertion(heard, last),
        _ => is_same_read(rules, heard),
    }
}

/// The lookup: the prefix read's refusal but for 10, or the host. The bytes used are compared, though not shown.
fn judge_host(version: i16, node: i64, message: &[u8]) -> Verdict<'_> {
    let last = metadata::LAST;
    let outside = entry_of_version(Some(last), version);
    let found = metadata::host(version.clamp(0, last), node, message);
    let known = judge_version(names::METADATA_RESPONSE, last, version);
    let judged = in_order(names::METADATA_RESPONSE, known, message.len(), &found, false, &[], &[]);
    let entry = (number_of(&judged) == 2).then_some(5);
    let reply = judged.map(|shown| shown.own.clone());
    let spelled = found.map(|shown| (primitives::spell(&shown, message), shown.used));
    let heard = rust::metadata::host(version, node, message);
    Verdict {
        answer: Answer { reply, lent: vec![] },
        voice: Voice::Rust,
        entry: outside.or(entry),
        complaint: (!is_same_at(outside, last, &spelled, &heard)).then(|| told(&heard)),
    }
}

fn judge_body_written<'a>(call: &WriteBody, room: usize, version: i16, given: &Given) -> Verdict<'a> {
    let last = call.last.unwrap_or(0);
    let made = (call.model)(version.clamp(0, last), given);
    // Tables that contradict themselves have no counterpart among the Rust's nested values.
    let torn = made.as_ref().is_err_and(|no| no.number == 13);
    let unset = (call.unavailable)(version, given);
    let mut verdict = judge_written(call.message, &made, room, (version, call.last), unset.is_some(), || {
        if torn {
            Err(Silence::CannotHold)
        } else {
            (call.rust)(version, given)
        }
    });
    if let (Some(own), Voice::Rust, None) = (unset, verdict.voice, &verdict.complaint) {
        verdict.complaint = complaint_unset(call, version, &Given { own: &own, ..*given }, &made);
    }
    verdict
}

/// Entry 4: without the field that it refuses, the Rust writes what the rules do with it.
fn complaint_unset(call: &WriteBody, version: i16, unset: &Given, made: &Result<Vec<u8>, Refusal>) -> Option<String> {
    let heard = (call.rust)(version, unset).ok()?;
    (!is_same_written(made, &heard)).then(|| told(&heard))
}

/// A write: `made` is what the rules make of the fields at the version, or the nearest one that there is. Entry 4: a set field
/// that the version lacks, unavailable, is refused by the Rust and dropped by the rules.
fn judge_written<'a>(
    message: u8,
    made: &Result<Vec<u8>, Refusal>,
    room: usize,
    (version, last): (i16, Option<i16>),
    unavailable: bool,
    ask: impl FnOnce() -> Result<rust::Written, Silence>,
) -> Verdict<'a> {
    let outside = entry_of_version(last, version);
    let offered = judge_version(message, last.unwrap_or(0), version).and(made.as_deref().map_err(|no| *no));
    let (reply, output) = stored(message, offered, room);
    let entry = match number_of(&reply) {
        _ if unavailable && made.is_ok() => Some(4),
        2 => Some(5),
        10 => Some(7),
        _ => None,
    };
    let answer = Answer { reply, lent: vec![output] };
    match ask() {
        Err(silence) => {
            let entry = outside.or(match silence {
                Silence::CannotHold => Some(12),
                Silence::NoSuchLevel => Some(11),
                Silence::NotCompared => None,
            });
            Verdict { answer, voice: Voice::RulesAlone, entry, complaint: None }
        }
        Ok(heard) => {
            let same = match outside {
                Some(2) => is_assertion(&heard, last.unwrap_or(0)),
                _ if unavailable => heard == Heard::Refused,
                _ => is_same_written(made, &heard),
            };
            Verdict { answer, voice: Voice::Rust, entry: outside.or(entry), complaint: (!same).then(|| told(&heard)) }
        }
    }
}
