//! Texts that are not well-formed: each kind of ill-formed sequence in every field that is a text of every message that is
//! read, at the front, in the middle and at the end.
use super::ends::{self, Of};
use super::exhaustive::Ask;
use super::wire::carried;
use super::{fetch, metadata, Section};
use crate::calls::{FETCH_READ, METADATA_READ, PRIMITIVES, REQUEST_READ};
use crate::case::Case;
use crate::model::primitives::{Form, Primitive};
use std::ops::RangeInclusive;

/// Sequences that are ill-formed whatever follows them.
pub const ILL_FORMED: [&[u8]; 21] = [
    // A byte that starts no sequence.
    b"\x80",
    b"\xbf",
    b"\xc0",
    b"\xc1",
    b"\xf5",
    b"\xff",
    // A continuation that is missing.
    b"\xc3\x28",
    b"\xe2\x28\xa1",
    b"\xe2\x82\x28",
    b"\xf0\x28\x8c\xbc",
    b"\xf0\x9f\x28\xbc",
    b"\xf0\x9f\x98\x28",
    // A surrogate.
    b"\xed\xa0\x80",
    b"\xed\xbf\xbf",
    // A character in more bytes than it needs.
    b"\xc0\x80",
    b"\xe0\x80\xaf",
    b"\xe0\x9f\xbf",
    b"\xf0\x80\x80\xaf",
    b"\xf0\x8f\xbf\xbf",
    // Above U+10FFFF.
    b"\xf4\x90\x80\x80",
    b"\xf7\xbf\xbf\xbf",
];

/// Characters that the end of the text cuts.
pub const CUT: [&[u8]; 6] = [b"\xc3", b"\xe2", b"\xe2\x82", b"\xf0", b"\xf0\x9f", b"\xf0\x9f\x98"];

/// Those of both lists that are put into long texts.
const IN_LONG: [&[u8]; 8] = [
    b"\xff",
    b"\xc3\x28",
    b"\xf0\x9f\x98\x28",
    b"\xed\xa0\x80",
    b"\xe0\x80\xaf",
    b"\xf4\x90\x80\x80",
    b"\xe2\x82",
    b"\xf0\x9f\x98",
];

const SHORT: RangeInclusive<usize> = 1..=20;
const LONG: usize = 4_500;

/// Where the sequence is in the text.
#[derive(Debug, Clone, Copy, PartialEq, Eq)]
pub enum At {
    Front,
    Middle,
    End,
}

/// An ill-formed text, and what follows it in the message.
pub struct Text {
    pub sequence: &'static [u8],
    pub at: At,
    /// Plain letters around the sequence; else characters of two, three and four bytes before it, and FF after it.
    pub plain: bool,
    pub contents: Vec<u8>,
    pub rest: &'static [u8],
}

impl Text {
    fn new(sequence: &'static [u8], at: At, plain: bool, before: usize, after: usize, rest: &'static [u8]) -> Self {
        let (front, last) = if plain { (vec![b'a'; before], b'b') } else { (characters(before), 0xff) };
        Self { sequence, at, plain, contents: [&front, sequence, &vec![last; after]].concat(), rest }
    }
}

/// Well-formed text of that size, with characters of two, three and four bytes where they fit.
fn characters(size: usize) -> Vec<u8> {
    let mut text = String::new();
    for piece in ["\u{e9}", "\u{20ac}", "abcdefghi", "\u{1f600}"].into_iter().cycle() {
        if text.len() + piece.len() > size {
            break;
        }
        text.push_str(piece);
    }
    text.push_str(&"z".repeat(size - text.len()));
    text.into_bytes()
}

/// Nothing, or a good rest of any body; after a character that is cut, nothing or bytes that would complete it.
fn rests(sequence: &[u8]) -> [&'static [u8]; 2] {
    [&[], if CUT.contains(&sequence) { &[0xbf; 40] } else { &[0; 40] }]
}

/// A sequence in a text of one size, where it fits: front, middle and end, if these differ. With nothing before it there are
/// plain letters only.
fn of_size(list: &mut Vec<Text>, sequence: &'static [u8], size: usize, plain: bool) {
    let Some(around) = size.checked_sub(sequence.len()) else { return };
    let mut ways = vec![(At::Front, 0), (At::Middle, around / 2), (At::End, around)];
    ways.dedup_by_key(|(_, before)| *before);
    ways.retain(|(_, before)| plain || *before > 0);
    for (at, before) in ways {
        let rest = rests(sequence)[list.len() % 2];
        list.push(Text::new(sequence, at, plain, before, around - before, rest));
    }
}

/// A character that is cut: at the end only, with each rest.
fn cut_of_size(list: &mut Vec<Text>, sequence: &'static [u8], size: usize, plain: bool) {
    let Some(before) = size.checked_sub(sequence.len()).filter(|before| plain || *before > 0) else { return };
    list.extend(rests(sequence).map(|rest| Text::new(sequence, At::End, plain, before, 0, rest)));
}

pub fn texts() -> Vec<Text> {
    let mut list = vec![];
    for plain in [true, false] {
        for sequence in ILL_FORMED.into_iter().chain(CUT) {
            let add = if CUT.contains(&sequence) { cut_of_size } else { of_size };
            SHORT.for_each(|size| add(&mut list, sequence, size, plain));
            if IN_LONG.contains(&sequence) {
                add(&mut list, sequence, LONG, plain);
            }
        }
    }
    list
}

/// A field that is a text: the call, what comes before its length, and how that is carried.
pub struct Field {
    pub ask: Ask,
    pub front: Vec<u8>,
    pub form: Form,
}

impl Field {
    /// Rooms take turns, and so do nodes: 7, which the body's one broker has, and others.
    pub fn case(&self, text: &Text, turn: u64) -> Case {
        let length = carried(self.form, text.contents.len() as u64);
        let message = [&self.front, &length[..], &text.contents, text.rest].concat();
        match self.ask {
            Ask::Host(version) => Case::Host { version, node: [7, 0, 7, -1, 7][(turn % 5) as usize], message },
            ask => ask.of(message, turn),
        }
    }
}

/// The texts of a body, each asked for in these ways.
fn of_body(list: &mut Vec<Field>, fields: Vec<ends::Field>, asks: &[Ask]) {
    for field in fields.into_iter().filter(|field| field.of == Of::Text) {
        list.extend(asks.iter().map(|ask| Field { ask: *ask, front: field.front.clone(), form: Form::Int16 }));
    }
}

/// Strings by themselves; the client's name and version in an ApiVersions request; hosts, racks, cluster ids and topic names
/// in Metadata responses, read and looked up in; and topic names in Fetch responses.
pub fn fields() -> Vec<Field> {
    let mut list = vec![];
    for call in &PRIMITIVES {
        if let Primitive::Text(form, _) = call.primitive {
            list.push(Field { ask: Ask::Primitive(call), front: vec![], form });
        }
    }
    let request = Ask::Body(&REQUEST_READ, 3);
    list.extend([vec![], vec![2, b'a']].map(|front| Field { ask: request, front, form: Form::Compact }));
    for version in 0..=METADATA_READ.last.unwrap_or(0) {
        let asks = [Ask::Body(&METADATA_READ, version), Ask::Host(version)];
        of_body(&mut list, metadata::ends::fields(version), &asks);
    }
    for version in 0..=FETCH_READ.last.unwrap_or(0) {
        of_body(&mut list, fetch::ends::fields(version), &[Ask::Body(&FETCH_READ, version)]);
    }
    list
}

/// Each text in each field.
pub fn section() -> Section {
    let (fields, texts) = (fields(), texts());
    let each = texts.len() as u64;
    Section::new(each * fields.len() as u64, move |index| {
        fields[(index / each) as usize].case(&texts[(index % each) as usize], index)
    })
}

/// Some fields and texts, by their ranks. In short texts: each sequence twice at the front, in the middle and at the end, and
/// each that is cut three times. One long text of plain letters for each of front, middle and end. The fields take turns, and
/// so do the texts of one kind.
pub fn chosen(fields: &[Field], texts: &[Text]) -> Vec<(usize, usize)> {
    const WHERE: [At; 3] = [At::Front, At::Middle, At::End];
    let all = |is: &dyn Fn(&Text) -> bool| -> Vec<usize> {
        texts.iter().enumerate().filter(|(_, text)| is(text)).map(|(rank, _)| rank).collect()
    };
    let is_long = |text: &Text| text.contents.len() == LONG;
    let whole = WHERE.into_iter().flat_map(|at| ILL_FORMED.map(|sequence| (sequence, at)));
    let cut = CUT.into_iter().map(|sequence| (sequence, At::End));
    let kinds = whole.clone().chain(whole).chain(cut.clone()).chain(cut.clone()).chain(cut);
    let mut list = vec![];
    for (turn, kind) in kinds.enumerate() {
        let same = all(&|text| (text.sequence, text.at) == kind && !is_long(text));
        list.push((turn % fields.len(), same[7 * turn % same.len()]));
    }
    for (at, field) in WHERE.into_iter().zip([0, fields.len() / 2, fields.len() - 1]) {
        list.push((field, all(&|text| text.at == at && text.plain && is_long(text))[0]));
    }
    list
}

/// These, to store. Each round of the fields is one turn on, so that rooms and nodes of a field change.
pub fn stored() -> Vec<Case> {
    let (fields, texts) = (fields(), texts());
    let turn = |rank: usize| (rank + rank / fields.len()) as u64;
    let case = |(rank, (field, text)): (usize, (usize, usize))| fields[field].case(&texts[text], turn(rank));
    chosen(&fields, &texts).into_iter().enumerate().map(case).collect()
}
