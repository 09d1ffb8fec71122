//! Primitives, read: docs/RULES.md, section 2. A reader holds the message, a place, and the row and field that it is in.
use super::names::{Cursor, ALONE};
use super::text::{is_text, well_formed};
use super::Shown;
use crate::line::{Refusal, Word};
use crate::token::{of_word, put_tags, Token};

/// How a length or a count is carried.
#[derive(Debug, Clone, Copy, PartialEq, Eq)]
pub enum Form {
    Int16,
    Int32,
    Compact,
}

/// What a null is: not allowed, a value of its own, or the same as empty.
#[derive(Debug, Clone, Copy, PartialEq, Eq)]
pub enum Null {
    Never,
    Kept,
    Empty,
}

#[derive(Debug, Clone, Copy, PartialEq, Eq)]
pub enum Primitive {
    /// INT8 to INT64, by the number of bytes.
    Int(usize),
    Boolean,
    UnsignedVarint,
    Varint,
    Varlong,
    Count(Form),
    Bytes(Form, Null),
    Text(Form, Null),
}

pub struct Reader<'a> {
    pub message: &'a [u8],
    pub at: usize,
    /// Rows of each table, by rank.
    pub tables: Vec<Vec<i64>>,
    cursor: Cursor,
}

type Read<T> = Result<T, Refusal>;

impl<'a> Reader<'a> {
    /// `of` is the message's number.
    pub fn new(of: u8, message: &'a [u8], tables: usize) -> Self {
        Self { message, at: 0, tables: vec![vec![]; tables], cursor: Cursor::new(of) }
    }

    pub fn shown(self, own: Vec<Word<'a>>) -> Shown<'a> {
        Shown { used: self.at, own, tables: self.tables }
    }

    /// The next field of the row, which is to be read. A primitive by itself is no field.
    pub fn field(&mut self) -> &mut Self {
        self.cursor.field();
        self
    }

    /// The next row of a table; then the row around it goes on.
    pub fn row(&mut self, table: usize, item: impl FnOnce(&mut Self) -> Read<()>) -> Read<()> {
        let around = self.cursor.enter(table);
        item(self)?;
        self.cursor.leave(around);
        Ok(())
    }

    /// A refusal in the row and field that is being read.
    pub fn refusal(&self, number: u8, place: usize) -> Refusal {
        self.cursor.refusal(number, place)
    }

    /// Two's complement, highest byte first.
    pub fn int(&mut self, bytes: usize) -> Read<i64> {
        let end = self.at + bytes;
        if end > self.message.len() {
            return Err(self.refusal(3, self.at));
        }
        let unsigned = self.message[self.at..end].iter().fold(0i128, |n, b| n * 256 + i128::from(*b));
        self.at = end;
        let half = 1i128 << (8 * bytes - 1);
        Ok((if unsigned < half { unsigned } else { unsigned - 2 * half }) as i64)
    }

    /// Of the tenth byte only the lowest bit counts, and its highest refuses.
    pub fn unsigned_varint(&mut self) -> Read<u64> {
        let mut number: u128 = 0;
        for i in 0..10 {
            let Some(byte) = self.message.get(self.at + i) else { return Err(self.refusal(3, self.at)) };
            number += u128::from(byte % 128) << (7 * i);
            if *byte < 128 {
                self.at += i + 1;
                return Ok((number % (1 << 64)) as u64);
            }
        }
        Err(self.refusal(5, self.at))
    }

    fn varlong(&mut self) -> Read<i64> {
        let carried = self.unsigned_varint()?;
        let half = (carried / 2) as i64;
        Ok(if carried % 2 == 0 { half } else { -half - 1 })
    }

    fn varint(&mut self) -> Read<i64> {
        let start = self.at;
        let number = self.varlong()?;
        i32::try_from(number).map_err(|_| self.refusal(11, start))?;
        Ok(number)
    }

    /// A length or count; nothing for null.
    pub fn length(&mut self, form: Form) -> Read<Option<u64>> {
        let start = self.at;
        let bytes = match form {
            Form::Int16 => 2,
            Form::Int32 => 4,
            Form::Compact => return Ok(self.unsigned_varint()?.checked_sub(1)),
        };
        match self.int(bytes)? {
            -1 => Ok(None),
            n => u64::try_from(n).map(Some).map_err(|_| self.refusal(4, start)),
        }
    }

    /// So many bytes of contents from here on, for a primitive that began at `start`.
    fn contents(&mut self, start: usize, length: u64) -> Read<Word<'a>> {
        let rest = &self.message[self.at..];
        if (rest.len() as u64) < length {
            return Err(self.refusal(3, start));
        }
        let part = Word::Part(self.at, &rest[..length as usize]);
        self.at += length as usize;
        Ok(part)
    }

    pub fn bytes(&mut self, form: Form, null: Null) -> Read<Word<'a>> {
        let start = self.at;
        match (self.length(form)?, null) {
            (Some(length), _) => self.contents(start, length),
            (None, Null::Kept) => Ok(Word::Null),
            (None, Null::Empty) => self.contents(start, 0),
            (None, Null::Never) => Err(self.refusal(if form == Form::Compact { 6 } else { 4 }, start)),
        }
    }

    /// Text that is not well-formed is refused where its longest well-formed beginning ends.
    pub fn text(&mut self, form: Form, null: Null) -> Read<Word<'a>> {
        match self.bytes(form, null)? {
            Word::Part(start, contents) if !is_text(contents) => Err(self.refusal(7, start + well_formed(contents))),
            word => Ok(word),
        }
    }

    /// Start and length of a text; nothing for null.
    pub fn span(&mut self, null: Null) -> Read<Option<[i64; 2]>> {
        Ok(match self.text(Form::Int16, null)? {
            Word::Part(start, contents) => Some([start as i64, contents.len() as i64]),
            _ => None,
        })
    }

    /// A field that the body has from a version on: an Int32.
    pub fn number_from(&mut self, first: i16, version: i16) -> Read<Word<'a>> {
        Ok(if version >= first { Word::Number(self.field().int(4)?.into()) } else { Word::Absent })
    }

    /// An array: how many items it has, nothing for null. Each is a row of the table.
    pub fn counted(&mut self, table: usize, item: impl Fn(&mut Self) -> Read<()>) -> Read<Option<i64>> {
        let count = self.length(Form::Int32)?;
        for _ in 0..count.unwrap_or(0) {
            self.row(table, &item)?;
        }
        Ok(count.map(|n| n as i64))
    }

    /// Rows (tag, start, length) behind those of the table; how many.
    pub fn tagged_fields(&mut self, table: usize) -> Read<i64> {
        let count = self.unsigned_varint()?;
        for _ in 0..count {
            self.row(table, |reader| reader.tag(table))?;
        }
        Ok(count as i64)
    }

    /// Two fields: the tag, and its length with the data.
    fn tag(&mut self, table: usize) -> Read<()> {
        let tag = self.field().unsigned_varint()?;
        let start = self.at;
        let length = self.field().unsigned_varint()?;
        let data = self.at;
        self.contents(start, length)?;
        self.tables[table].extend([tag as i64, data as i64, length as i64]);
        Ok(())
    }

    pub fn primitive(&mut self, primitive: Primitive) -> Read<Word<'a>> {
        let number = |n: i64| Word::Number(n.into());
        Ok(match primitive {
            Primitive::Int(bytes) => number(self.int(bytes)?),
            Primitive::Boolean => number((self.int(1)? != 0).into()),
            Primitive::UnsignedVarint => Word::Number(self.unsigned_varint()?.into()),
            Primitive::Varint => number(self.varint()?),
            Primitive::Varlong => number(self.varlong()?),
            Primitive::Count(form) => self.length(form)?.map_or(Word::Null, |n| Word::Number(n.into())),
            Primitive::Bytes(form, null) => self.bytes(form, null)?,
            Primitive::Text(form, null) => self.text(form, null)?,
        })
    }
}

/// A primitive called by itself, size not judged.
pub fn read(primitive: Primitive, message: &[u8]) -> Read<Shown<'_>> {
    let mut reader = Reader::new(ALONE, message, 0);
    let word = reader.primitive(primitive)?;
    Ok(reader.shown(vec![word]))
}

/// Tagged fields called by themselves.
pub fn read_tagged_fields(_version: i16, _whole: bool, message: &[u8]) -> Read<Shown<'_>> {
    let mut reader = Reader::new(ALONE, message, 1);
    let count = reader.tagged_fields(0)?;
    Ok(reader.shown(vec![Word::Number(count.into())]))
}

pub fn spell<'a>(shown: &Shown<'a>, _message: &'a [u8]) -> Vec<Token<'a>> {
    shown.own.iter().map(of_word).collect()
}

pub fn spell_tagged_fields<'a>(shown: &Shown<'a>, message: &'a [u8]) -> Vec<Token<'a>> {
    let [Word::Number(count)] = shown.own[..] else { unreachable!() };
    let mut tokens = vec![];
    put_tags(&mut tokens, count, &mut shown.tables[0].chunks_exact(3), message);
    tokens
}
