//! A value as one list of tokens in body order. What an answer shows and what the Rust gave are both spelled so; starts
//! have no part in it, contents have.
use crate::line::Word;
use std::borrow::Cow;
use std::slice::ChunksExact;

#[derive(Debug, Clone, PartialEq, Eq)]
pub enum Token<'a> {
    Number(i128),
    Contents(Cow<'a, [u8]>),
    Null,
    Absent,
}

impl Token<'static> {
    pub fn number(n: impl Into<i128>) -> Self {
        Self::Number(n.into())
    }

    pub fn contents(bytes: impl Into<Vec<u8>>) -> Self {
        Self::Contents(Cow::Owned(bytes.into()))
    }
}

/// A shown word, spelled.
pub fn of_word<'a>(word: &Word<'a>) -> Token<'a> {
    match word {
        Word::Number(n) => Token::Number(*n),
        Word::Part(_, contents) => Token::Contents(Cow::Borrowed(contents)),
        Word::Null => Token::Null,
        Word::Absent | Word::None => Token::Absent,
    }
}

/// The bytes that two cells, start and length, speak of.
pub fn contents<'a>(message: &'a [u8], cells: &[i64]) -> &'a [u8] {
    &message[cells[0] as usize..][..cells[1] as usize]
}

/// Cells of rows, spelled one behind the other.
pub struct Spelling<'a> {
    pub message: &'a [u8],
    pub tokens: Vec<Token<'a>>,
}

impl<'a> Spelling<'a> {
    pub fn numbers(&mut self, cells: &[i64]) {
        self.tokens.extend(cells.iter().map(|cell| Token::number(*cell)));
    }

    /// Start and length of a text or of data.
    pub fn part(&mut self, cells: &[i64]) {
        self.tokens.push(Token::Contents(Cow::Borrowed(contents(self.message, cells))));
    }
}

/// Tags of a message, spelled from shown rows (tag, start, length): their count, where -1 is absent, and so many rows.
pub fn put_tags<'a>(tokens: &mut Vec<Token<'a>>, count: i128, rows: &mut ChunksExact<i64>, message: &'a [u8]) {
    if count == -1 {
        return tokens.push(Token::Absent);
    }
    tokens.push(Token::Number(count));
    for row in rows.take(count as usize) {
        tokens.push(Token::number(row[0] as u64));
        tokens.push(Token::Contents(Cow::Borrowed(contents(message, &row[1..3]))));
    }
}
