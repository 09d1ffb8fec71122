//! The words of docs/ANSWERS.md: what stands in a line, and how it is spelled there.
use std::io::Write;

/// What every table is lent with, and every output.
pub const TABLE_FILL: i64 = 777;
pub const OUTPUT_FILL: u8 = 0xa5;

/// A word of a case or an answer.
#[derive(Debug, Clone, PartialEq, Eq)]
pub enum Word<'a> {
    /// Wide enough for both a signed and an unsigned number of 64 bits.
    Number(i128),
    /// Contents, and where they start.
    Part(usize, &'a [u8]),
    Null,
    Absent,
    /// No host.
    None,
}

/// What a call was lent, as it is afterwards: the front is written, the rest has its fill.
#[derive(Debug, Clone, PartialEq, Eq)]
pub enum Lent {
    Table { room: usize, front: Vec<i64> },
    Output { room: usize, front: Vec<u8> },
}

/// The row and the field of a refusal that has none.
pub const NONE: i64 = -1;

/// A refusal: number, place, need, and what it speaks of.
#[derive(Debug, Clone, Copy, PartialEq, Eq)]
pub struct Refusal {
    pub number: u8,
    pub place: usize,
    pub need: usize,
    /// The message's number, one of those in `model::names`.
    pub message: u8,
    /// The row in its table, counted over the whole body; none for the body's own fields.
    pub row: i64,
    /// The position among the fields that the version has in that row.
    pub field: i64,
}

impl Refusal {
    /// With neither row nor field.
    pub fn at(message: u8, number: u8, place: usize) -> Self {
        Self { number, place, need: 0, message, row: NONE, field: NONE }
    }

    pub fn no_room(message: u8, need: usize) -> Self {
        Self { need, ..Self::at(message, 10, 0) }
    }
}

/// Does a line say what a refusal speaks of? docs/ANSWERS.md has no words for it yet.
const LINES_HAVE_NAMES: bool = false;

/// A whole answer.
#[derive(Debug, Clone, PartialEq, Eq)]
pub struct Answer<'a> {
    pub reply: Result<Vec<Word<'a>>, Refusal>,
    pub lent: Vec<Lent>,
}

impl Answer<'_> {
    pub fn put(&self, line: &mut Vec<u8>) {
        match &self.reply {
            Ok(words) => {
                line.extend(b"ok");
                for word in words {
                    line.push(b' ');
                    put_word(line, word);
                }
            }
            Err(no) => put_refusal(line, no),
        }
        for lent in &self.lent {
            line.push(b' ');
            put_lent(line, lent);
        }
        if !self.lent.is_empty() {
            line.extend(b" kept");
        }
    }
}

fn put_refusal(line: &mut Vec<u8>, no: &Refusal) {
    write!(line, "no {} {} {}", no.number, no.place, no.need).unwrap();
    if LINES_HAVE_NAMES {
        write!(line, " {} {} {}", no.message, no.row, no.field).unwrap();
    }
}

pub fn put_word(line: &mut Vec<u8>, word: &Word) {
    match word {
        Word::Number(n) => put_number(line, *n),
        Word::Part(start, bytes) => {
            write!(line, "{start}:").unwrap();
            put_bytes(line, bytes);
        }
        Word::Null => line.extend(b"null"),
        Word::Absent => line.extend(b"absent"),
        Word::None => line.extend(b"none"),
    }
}

pub fn put_bytes(line: &mut Vec<u8>, bytes: &[u8]) {
    let mut pieces = Pieces::bytes(line);
    bytes.iter().for_each(|b| pieces.add(*b, 1));
    pieces.end();
}

pub fn put_cells(line: &mut Vec<u8>, cells: &[i64]) {
    let mut pieces = Pieces::cells(line);
    cells.iter().for_each(|c| pieces.add(*c, 1));
    pieces.end();
}

fn put_lent(line: &mut Vec<u8>, lent: &Lent) {
    match lent {
        Lent::Table { room, front } => {
            let mut pieces = Pieces::cells(line);
            front.iter().for_each(|c| pieces.add(*c, 1));
            pieces.add(TABLE_FILL, room - front.len());
            pieces.end();
        }
        Lent::Output { room, front } => {
            let mut pieces = Pieces::bytes(line);
            front.iter().for_each(|b| pieces.add(*b, 1));
            pieces.add(OUTPUT_FILL, room - front.len());
            pieces.end();
        }
    }
}

/// Nearly all numbers are narrow, and these are spelled much faster.
fn put_number(line: &mut Vec<u8>, n: i128) {
    match i64::try_from(n) {
        Ok(n) => write!(line, "{n}").unwrap(),
        Err(_) => write!(line, "{n}").unwrap(),
    }
}

/// BYTES or CELLS: runs as long as they can be, from `least` on shown with `*`; bytes between two runs are one piece.
struct Pieces<'l, T> {
    line: &'l mut Vec<u8>,
    least: usize,
    joined: bool,
    show: fn(&mut Vec<u8>, T),
    run: Option<(T, usize)>,
    last: Last,
}

#[derive(PartialEq)]
enum Last {
    Nothing,
    Single,
    Run,
}

impl<'l> Pieces<'l, u8> {
    fn bytes(line: &'l mut Vec<u8>) -> Self {
        let show = |line: &mut Vec<u8>, b: u8| line.extend([b >> 4, b & 15].map(|d| b"0123456789abcdef"[d as usize]));
        Self { line, least: 8, joined: true, show, run: None, last: Last::Nothing }
    }
}

impl<'l> Pieces<'l, i64> {
    fn cells(line: &'l mut Vec<u8>) -> Self {
        let show = |line: &mut Vec<u8>, n: i64| write!(line, "{n}").unwrap();
        Self { line, least: 4, joined: false, show, run: None, last: Last::Nothing }
    }
}

impl<T: Copy + PartialEq> Pieces<'_, T> {
    fn add(&mut self, item: T, times: usize) {
        match &mut self.run {
            _ if times == 0 => {}
            Some((same, n)) if *same == item => *n += times,
            _ => {
                self.put_run();
                self.run = Some((item, times));
            }
        }
    }

    fn put_run(&mut self) {
        let Some((item, n)) = self.run.take() else { return };
        if n >= self.least {
            self.part(false);
            (self.show)(self.line, item);
            write!(self.line, "*{n}").unwrap();
            self.last = Last::Run;
            return;
        }
        for _ in 0..n {
            self.part(self.joined && self.last == Last::Single);
            (self.show)(self.line, item);
            self.last = Last::Single;
        }
    }

    /// The `,` in front of a piece that is not the first.
    fn part(&mut self, goes_on: bool) {
        if self.last != Last::Nothing && !goes_on {
            self.line.push(b',');
        }
    }

    fn end(mut self) {
        self.put_run();
        if self.last == Last::Nothing {
            self.line.push(b'-');
        }
    }
}
