//! Frames: a size, a header, and a body that is not read; request headers 1 and 2, response headers 0 and 1. Places and
//! starts count from the frame's first byte. The one table is tags.
use super::names::{ALONE, REQUEST_HEADER, RESPONSE_HEADER};
use super::primitives::{Form, Null, Reader};
use super::write::{Fields, Given, Own, Tables};
use super::{judge_rooms, judge_size, output, Shown, LIMIT};
use crate::line::{Lent, Refusal, Word};
use crate::token::{contents, of_word, put_tags, Token};
use std::borrow::Cow;

/// What refusals call them, and the header numbers that there are: the last one has tags.
#[derive(Debug, Clone, Copy, PartialEq, Eq)]
pub struct Headers {
    pub message: u8,
    pub first: i64,
    pub last: i64,
}

pub const REQUEST: Headers = Headers { message: REQUEST_HEADER, first: 1, last: 2 };
pub const RESPONSE: Headers = Headers { message: RESPONSE_HEADER, first: 0, last: 1 };

/// The bytes of the size, which does not count them.
pub const SIZE: usize = 4;
/// Row width of the tag table.
pub const TAG: usize = 3;
const ABSENT_TAGS: i64 = -1;

type Read<T> = Result<T, Refusal>;

/// 1: an unknown header number.
pub fn judge_header(known: Headers, header: i64) -> Result<(), Refusal> {
    if (known.first..=known.last).contains(&header) {
        Ok(())
    } else {
        Err(Refusal::at(known.message, 1, 0))
    }
}

/// The size, whatever it is; nothing where it is cut.
pub fn size(bytes: &[u8]) -> Option<i64> {
    Reader::new(ALONE, bytes, 0).int(SIZE).ok()
}

/// A reader of the frame's bytes alone, at its header: 3, 14, and 3 again where fewer bytes are there than the size says. The
/// size is before the first field.
fn opened(of: u8, bytes: &[u8]) -> Read<Reader<'_>> {
    let mut reader = Reader::new(of, bytes, 1);
    let size = reader.int(SIZE)?;
    if !(0..=LIMIT as i64).contains(&size) {
        return Err(reader.refusal(14, 0));
    }
    reader.message = bytes.get(..SIZE + size as usize).ok_or(reader.refusal(3, 0))?;
    Ok(reader)
}

/// The header's own words, and what is left of the frame.
fn closed<'a>(reader: Reader<'a>, mut own: Vec<Word<'a>>) -> Shown<'a> {
    own.push(Word::Part(reader.at, &reader.message[reader.at..]));
    Shown { used: reader.message.len(), own, tables: reader.tables }
}

fn number<'a>(n: i64) -> Word<'a> {
    Word::Number(n.into())
}

fn tags_if(reader: &mut Reader, has: bool) -> Read<i64> {
    if has {
        reader.field().tagged_fields(0)
    } else {
        Ok(ABSENT_TAGS)
    }
}

/// A request's frame. At 0 there is no client name; that header is not known, and is read for the comparison alone.
pub fn read_request(header: i16, bytes: &[u8]) -> Read<Shown<'_>> {
    let mut reader = opened(REQUEST_HEADER, bytes)?;
    let [key, version, correlation] = [reader.field().int(2)?, reader.field().int(2)?, reader.field().int(4)?];
    let client = if header >= 1 { reader.field().text(Form::Int16, Null::Kept)? } else { Word::Absent };
    let tags = tags_if(&mut reader, header >= 2)?;
    Ok(closed(reader, vec![number(key), number(version), number(correlation), client, number(tags)]))
}

pub fn read_response(header: i16, bytes: &[u8]) -> Read<Shown<'_>> {
    let mut reader = opened(RESPONSE_HEADER, bytes)?;
    let correlation = reader.field().int(4)?;
    let tags = tags_if(&mut reader, header >= 1)?;
    Ok(closed(reader, vec![number(correlation), number(tags)]))
}

/// The order of refusals on reading: 1, what the bytes gave, 10. The bytes may be more than the limit.
pub fn in_order<'s, 'a>(known: Headers, header: i64, bytes: &'s Read<Shown<'a>>, room: usize) -> Read<&'s Shown<'a>> {
    judge_header(known, header)?;
    let shown = bytes.as_ref().map_err(|no| *no)?;
    judge_rooms(known.message, shown, &[TAG], &[room])?;
    Ok(shown)
}

/// What a read of a frame showed, spelled: the numbers, the client name of a request, tags, and the body.
pub fn spell<'a>(shown: &Shown<'a>, bytes: &'a [u8]) -> Vec<Token<'a>> {
    let [numbers @ .., Word::Number(tags), body] = &shown.own[..] else { unreachable!() };
    let mut tokens: Vec<Token> = numbers.iter().map(|word| of_part(word, bytes)).collect();
    put_tags(&mut tokens, *tags, &mut shown.tables[0].chunks_exact(TAG), bytes);
    tokens.push(of_part(body, bytes));
    tokens
}

/// A part by the start and the length that it shows.
fn of_part<'a>(word: &Word<'a>, bytes: &'a [u8]) -> Token<'a> {
    match word {
        Word::Part(start, part) => Token::Contents(Cow::Borrowed(contents(bytes, &[*start as i64, part.len() as i64]))),
        word => of_word(word),
    }
}

/// A request's header to write: own words API key, version, correlation number, client name and tag count. At 0 as on reading.
pub fn write_request(header: i16, given: &Given) -> Result<Vec<u8>, Refusal> {
    let [key, version, correlation, client, Own::Number(tags)] = given.own else { unreachable!() };
    let mut tables = Tables::new(REQUEST_HEADER, given);
    tables.inside(client);
    let mut fields = judge_tags(tables, *tags)?;

    fields.field().int(2, key.or(0));
    fields.field().int(2, version.or(0));
    fields.field().int(4, correlation.or(0));
    match client {
        _ if header < 1 => {}
        Own::Part(start, length) => fields.field().text(Form::Int16, given.range(*start, *length)),
        _ => fields.field().null(Form::Int16),
    }
    put_tags_if(&mut fields, given, *tags, header >= 2);
    fields.judged()
}

/// A response's header to write: own words correlation number and tag count.
pub fn write_response(header: i16, given: &Given) -> Result<Vec<u8>, Refusal> {
    let [correlation, Own::Number(tags)] = given.own else { unreachable!() };
    let mut fields = judge_tags(Tables::new(RESPONSE_HEADER, given), *tags)?;

    fields.field().int(4, correlation.or(0));
    put_tags_if(&mut fields, given, *tags, header >= 1);
    fields.judged()
}

/// 13, of tags too that the header does not have.
fn judge_tags(mut tables: Tables, count: i64) -> Result<Fields, Refusal> {
    tables.tag_count(count);
    tables.tags_must_add_up(0);
    tables.judged()
}

fn put_tags_if(fields: &mut Fields, given: &Given, count: i64, has: bool) {
    if has {
        fields.field().tagged_fields(given, &mut given.tag_rows(0), count);
    }
}

/// Size, header and body.
pub fn framed(header: &[u8], body: &[u8]) -> Vec<u8> {
    let size = (header.len() + body.len()) as u32;
    [&size.to_be_bytes(), header, body].concat()
}

/// The reply to a write that has come as far as the frame's bytes, and the output after it: 2, which does not count the size's
/// own bytes, then 10, which does.
pub fn stored<'a>(message: u8, made: Result<&[u8], Refusal>, room: usize) -> (Result<Vec<Word<'a>>, Refusal>, Lent) {
    let limited = made.and_then(|frame| {
        judge_size(message, frame.len() - SIZE)?;
        Ok(frame)
    });
    output(message, limited, room)
}

/// Which header a request has, by its API key and version.
pub fn request_number(key: i64, version: i64) -> i64 {
    const API_VERSIONS: i64 = 18;
    if key == API_VERSIONS && version >= 3 {
        2
    } else {
        1
    }
}

/// And a response.
pub fn response_number(_key: i64, _version: i64) -> i64 {
    0
}
