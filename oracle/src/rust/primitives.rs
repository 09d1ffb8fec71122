//! Primitives of the given Rust, read and written.
use super::{listen, Read, Silence, Written};
use crate::model::primitives::{Form, Null, Primitive};
use crate::model::write::{Given, Own, Value};
use crate::protocol::primitives::*;
use crate::protocol::record::RecordBatch;
use crate::protocol::traits::{ReadError, ReadType, WriteError, WriteType};
use crate::token::Token;
use std::io::Cursor;

/// Counts up to here are asked for: the Rust reads and writes the count together with its elements.
pub const MOST_ELEMENTS: u64 = 100_000;

/// An element of no bytes, so that an array is its count alone.
#[derive(Clone)]
struct Nothing;

impl<R: std::io::Read> ReadType<R> for Nothing {
    fn read(_: &mut R) -> Result<Self, ReadError> {
        Ok(Self)
    }
}

impl<W: std::io::Write> WriteType<W> for Nothing {
    fn write(&self, _: &mut W) -> Result<(), WriteError> {
        Ok(())
    }
}

type Reader<'a> = Cursor<&'a [u8]>;

pub fn read(primitive: Primitive, message: &[u8]) -> Read {
    listen(|| {
        let mut reader = Cursor::new(message);
        let token = read_token(primitive, &mut reader)?;
        Ok::<_, ReadError>((vec![token], reader.position() as usize))
    })
}

fn read_token(primitive: Primitive, r: &mut Reader) -> Result<Token<'static>, ReadError> {
    use Primitive as P;
    let count = |elements: Option<Vec<Nothing>>| elements.map_or(Token::Null, |e| Token::number(e.len() as u64));
    Ok(match primitive {
        P::Int(1) => Token::number(Int8::read(r)?.0),
        P::Int(2) => Token::number(Int16::read(r)?.0),
        P::Int(4) => Token::number(Int32::read(r)?.0),
        P::Int(_) => Token::number(Int64::read(r)?.0),
        P::Boolean => Token::number(Boolean::read(r)?.0),
        P::UnsignedVarint => Token::number(UnsignedVarint::read(r)?.0),
        P::Varint => Token::number(Varint::read(r)?.0),
        P::Varlong => Token::number(Varlong::read(r)?.0),
        P::Count(Form::Compact) => count(CompactArray::read(r)?.0),
        P::Count(_) => count(Array::read(r)?.0),
        P::Bytes(Form::Compact, _) => Token::contents(CompactBytes::read(r)?.0),
        P::Bytes(_, Null::Never) => Token::contents(Bytes::read(r)?.0),
        P::Bytes(_, Null::Kept) => NullableBytes::read(r)?.0.map_or(Token::Null, Token::contents),
        P::Bytes(_, Null::Empty) => Token::contents(contents(Records::read(r)?)),
        P::Text(Form::Compact, Null::Never) => Token::contents(CompactString::read(r)?.0),
        P::Text(Form::Compact, _) => CompactNullableString::read(r)?.0.map_or(Token::Null, Token::contents),
        P::Text(_, Null::Never) => Token::contents(String_::read(r)?.0),
        P::Text(..) => NullableString::read(r)?.0.map_or(Token::Null, Token::contents),
    })
}

/// With the shim a batch is all that is left, so there is at most one.
pub fn contents(records: Records) -> Vec<u8> {
    records.0.into_iter().flat_map(|batch| batch.0).collect()
}

pub fn read_tagged_fields(_version: i16, message: &[u8]) -> Read {
    listen(|| {
        let mut reader = Cursor::new(message);
        let mut tokens = vec![];
        spell_tags(&mut tokens, Some(TaggedFields::read(&mut reader)?));
        Ok::<_, ReadError>((tokens, reader.position() as usize))
    })
}

/// A number that the version may lack.
pub fn spell_number(field: Option<Int32>) -> Token<'static> {
    field.map_or(Token::Absent, |n| Token::number(n.0))
}

pub fn spell_tags(tokens: &mut Vec<Token<'static>>, tags: Option<TaggedFields>) {
    let Some(TaggedFields(tags)) = tags else { return tokens.push(Token::Absent) };
    tokens.push(Token::number(tags.len() as u64));
    for (tag, data) in tags {
        tokens.extend([Token::number(tag.0), Token::contents(data)]);
    }
}

/// Is the primitive the given text's own, and not a stand-in's?
pub fn is_compared(primitive: Primitive) -> bool {
    !matches!(primitive, Primitive::Varint | Primitive::Varlong)
}

pub fn write(primitive: Primitive, value: &Value) -> Result<Written, Silence> {
    match value {
        Value::Number(n) => write_number(primitive, *n),
        Value::Contents(contents) => write_contents(primitive, contents),
        Value::Null => Ok(match primitive {
            Primitive::Count(Form::Compact) => put(CompactArray::<Nothing>(None)),
            Primitive::Count(_) => put(Array::<Nothing>(None)),
            Primitive::Bytes(..) => put(NullableBytes(None)),
            Primitive::Text(Form::Compact, _) => put(CompactNullableString(None)),
            _ => put(NullableString(None)),
        }),
    }
}

fn put<T: WriteType<Vec<u8>>>(value: T) -> Written {
    listen(|| {
        let mut bytes = vec![];
        value.write(&mut bytes).map(|()| bytes)
    })
}

fn write_number(primitive: Primitive, n: i64) -> Result<Written, Silence> {
    use Primitive as P;
    Ok(match primitive {
        P::Int(1) => put(Int8(held(n)?)),
        P::Int(2) => put(Int16(held(n)?)),
        P::Int(4) => put(Int32(held(n)?)),
        P::Int(_) => put(Int64(n)),
        P::Boolean => put(Boolean(n != 0)),
        P::UnsignedVarint => put(UnsignedVarint(n as u64)),
        P::Varint => return held::<i32>(n).and(Err(Silence::NotCompared)),
        P::Count(_) if n as u64 > MOST_ELEMENTS => return Err(Silence::NotCompared),
        P::Count(Form::Compact) => put(CompactArray(Some(vec![Nothing; n as usize]))),
        P::Count(_) => put(Array(Some(vec![Nothing; n as usize]))),
        _ => return Err(Silence::NotCompared),
    })
}

/// A cell in a narrower type of the Rust.
pub fn held<T: TryFrom<i64>>(cell: i64) -> Result<T, Silence> {
    T::try_from(cell).map_err(|_| Silence::CannotHold)
}

/// An own word that may be unset.
pub fn held_number(word: &Own) -> Result<Option<Int32>, Silence> {
    match word {
        Own::Number(n) => held(*n).map(|n| Some(Int32(n))),
        _ => Ok(None),
    }
}

pub fn held_text(contents: &[u8]) -> Result<String, Silence> {
    String::from_utf8(contents.to_vec()).map_err(|_| Silence::CannotHold)
}

fn write_contents(primitive: Primitive, contents: &[u8]) -> Result<Written, Silence> {
    use Primitive as P;
    Ok(match primitive {
        P::Bytes(Form::Compact, _) => put(CompactBytes(contents.to_vec())),
        P::Bytes(_, Null::Never) => put(Bytes(contents.to_vec())),
        P::Bytes(_, Null::Kept) => put(NullableBytes(Some(contents.to_vec()))),
        P::Bytes(_, Null::Empty) => put(Records(vec![RecordBatch(contents.to_vec())])),
        P::Text(Form::Compact, Null::Never) => put(CompactString(held_text(contents)?)),
        P::Text(Form::Compact, _) => put(CompactNullableString(Some(held_text(contents)?))),
        P::Text(_, Null::Never) => put(String_(held_text(contents)?)),
        _ => put(NullableString(Some(held_text(contents)?))),
    })
}

pub fn write_tagged_fields(_version: i16, given: &Given) -> Result<Written, Silence> {
    let [Own::Number(count)] = given.own else { unreachable!() };
    let tags = held_tags(given, &mut given.tag_rows(0), *count);
    Ok(put(tags.unwrap_or_default()))
}

/// So many of the tag rows that are left; -1 is unset.
pub fn held_tags<'a>(given: &Given, rows: &mut impl Iterator<Item = &'a [i64]>, count: i64) -> Option<TaggedFields> {
    let count = usize::try_from(count).ok()?;
    let data = |row: &[i64]| (UnsignedVarint(row[0] as u64), given.range(row[1], row[2]).to_vec());
    Some(TaggedFields(rows.take(count).map(data).collect()))
}
