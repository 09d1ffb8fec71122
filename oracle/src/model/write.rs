//! What is written: docs/RULES.md, sections 2 and 7. 13 is judged over all that is lent, then 7 and 11 in field order, each with
//! the row and field that it is in.
use super::names::{Cursor, ALONE};
use super::primitives::{Form, Primitive};
use super::text::is_text;
use crate::line::Refusal;

const TAG: usize = 3;

/// A word of the body's own row that a writer is given.
#[derive(Debug, Clone, Copy, PartialEq, Eq)]
pub enum Own {
    Number(i64),
    Part(i64, i64),
    /// A Boolean that is set.
    Flag(bool),
    Null,
    /// Unset.
    Absent,
}

impl Own {
    /// The number, or the one that stands for unset.
    pub fn or(&self, unset: i64) -> i64 {
        match self {
            Own::Number(n) => *n,
            _ => unset,
        }
    }
}

/// All that a writer of a body is given beside the version.
#[derive(Debug, Clone, PartialEq, Eq)]
pub struct Given<'a> {
    pub lent: &'a [u8],
    pub own: &'a [Own],
    pub tables: &'a [Vec<i64>],
}

impl<'a> Given<'a> {
    pub fn rows(&self, table: usize, width: usize) -> Vec<&'a [i64]> {
        self.tables[table].chunks_exact(width).collect()
    }

    pub fn tag_rows(&self, table: usize) -> std::slice::ChunksExact<'a, i64> {
        self.tables[table].chunks_exact(TAG)
    }

    /// The bytes of a text, none where it is unset. Only for ranges that are inside.
    pub fn part(&self, text: &Own) -> &'a [u8] {
        match *text {
            Own::Part(start, length) => self.range(start, length),
            _ => &[],
        }
    }

    pub fn range(&self, start: i64, length: i64) -> &'a [u8] {
        &self.lent[start as usize..start as usize + length as usize]
    }
}

/// 13: do the tables agree with the counts, and lie all ranges inside?
pub struct Tables<'g, 'a> {
    message: u8,
    given: &'g Given<'a>,
    tags: i128,
    good: bool,
}

impl<'g, 'a> Tables<'g, 'a> {
    /// `message` is the number of what is to be written.
    pub fn new(message: u8, given: &'g Given<'a>) -> Self {
        Self { message, given, tags: 0, good: true }
    }

    /// A count that cannot be -1.
    pub fn must_be(&mut self, count: i64, rows: usize) {
        self.good &= i128::from(count) == rows as i128;
    }

    /// Counts that cannot be -1, added up.
    pub fn must_add_up(&mut self, counts: impl Iterator<Item = i64>, rows: usize) {
        let mut sum = 0;
        for count in counts {
            self.good &= count >= 0;
            sum += i128::from(count);
        }
        self.good &= sum == rows as i128;
    }

    /// A tag count: -1 is unset and adds none.
    pub fn tag_count(&mut self, count: i64) {
        self.good &= count >= -1;
        self.tags += i128::from(count.max(0));
    }

    /// The tag counts so far, against the rows of the tag table; and the data of these.
    pub fn tags_must_add_up(&mut self, table: usize) {
        let rows = self.given.tag_rows(table);
        self.good &= self.tags == rows.len() as i128;
        rows.for_each(|row| self.inside(&Own::Part(row[1], row[2])));
    }

    /// A field that is unset has no range.
    pub fn inside(&mut self, text: &Own) {
        if let Own::Part(start, length) = *text {
            let end = i128::from(start) + i128::from(length);
            self.good &= start >= 0 && length >= 0 && end <= self.given.lent.len() as i128;
        }
    }

    /// 13, or fields of the message, of which none is put yet.
    pub fn judged(&self) -> Result<Fields, Refusal> {
        if self.good {
            Ok(Fields::new(self.message))
        } else {
            Err(Refusal::at(self.message, 13, 0))
        }
    }
}

/// Fields one after another, the refusal of the first that cannot be written, and whether there is a length or count that four
/// bytes or a varint cannot carry: what it stands for is over the limit, which is judged after all faults.
pub struct Fields {
    bytes: Vec<u8>,
    fault: Option<Refusal>,
    over: bool,
    cursor: Cursor,
}

impl Fields {
    fn new(message: u8) -> Self {
        Self { bytes: vec![], fault: None, over: false, cursor: Cursor::new(message) }
    }

    /// The next field of the row, which is to be put. A primitive by itself is no field.
    pub fn field(&mut self) -> &mut Self {
        self.cursor.field();
        self
    }

    /// The next row of a table; then the row around it goes on.
    pub fn row(&mut self, table: usize, item: impl FnOnce(&mut Self)) {
        let around = self.cursor.enter(table);
        item(self);
        self.cursor.leave(around);
    }

    pub fn must(&mut self, holds: bool, number: u8) {
        if !holds {
            self.fault.get_or_insert(self.cursor.refusal(number, 0));
        }
    }

    pub fn int(&mut self, bytes: usize, number: i64) {
        let half = 1i128 << (8 * bytes - 1);
        self.must((-half..half).contains(&number.into()), 11);
        self.bytes.extend(&number.to_be_bytes()[8 - bytes..]);
    }

    /// Seven bits a byte, lowest first. Wider than 64 bits, so that one more than a count always fits.
    fn unsigned_varint(&mut self, mut number: u128) {
        while number >= 128 {
            self.bytes.push((number % 128 + 128) as u8);
            number /= 128;
        }
        self.bytes.push(number as u8);
    }

    fn zigzag(&mut self, number: i64) {
        let doubled = 2 * i128::from(number);
        self.unsigned_varint(if number >= 0 { doubled } else { -doubled - 1 } as u128);
    }

    /// A length or count; compact ones are carried with 1 added, and hold at most 2^64 - 2.
    pub fn length(&mut self, form: Form, n: usize) {
        match form {
            Form::Int16 => self.int(2, i64::try_from(n).unwrap_or(i64::MAX)),
            Form::Int32 => {
                self.over |= i32::try_from(n).is_err();
                self.bytes.extend((n as u32).to_be_bytes());
            }
            Form::Compact => {
                self.over |= n == usize::MAX;
                self.unsigned_varint(n as u128 + 1);
            }
        }
    }

    pub fn null(&mut self, form: Form) {
        match form {
            Form::Int16 => self.int(2, -1),
            Form::Int32 => self.int(4, -1),
            Form::Compact => self.unsigned_varint(0),
        }
    }

    fn sized(&mut self, form: Form, contents: &[u8]) {
        self.length(form, contents.len());
        self.bytes.extend(contents);
    }

    /// For one text the length is judged before the contents.
    pub fn text(&mut self, form: Form, contents: &[u8]) {
        self.sized(form, contents);
        self.must(is_text(contents), 7);
    }

    /// So many of the rows that are left, none for -1. They have no faults, so these rows are not counted.
    pub fn tagged_fields<'a>(&mut self, given: &Given, rows: &mut impl Iterator<Item = &'a [i64]>, count: i64) {
        let count = count.max(0);
        self.unsigned_varint(count as u128);
        for row in rows.take(count as usize) {
            self.unsigned_varint(u128::from(row[0] as u64));
            let data = given.range(row[1], row[2]);
            self.unsigned_varint(data.len() as u128);
            self.bytes.extend(data);
        }
    }

    pub fn judged(self) -> Result<Vec<u8>, Refusal> {
        match self.fault {
            Some(no) => Err(no),
            None if self.over => Err(Refusal::at(self.cursor.message, 2, 0)),
            None => Ok(self.bytes),
        }
    }
}

/// What a primitive written by itself is given.
#[derive(Debug, Clone, PartialEq, Eq)]
pub enum Value {
    /// A cell: signed or unsigned as the primitive has it.
    Number(i64),
    Contents(Vec<u8>),
    Null,
}

/// A primitive by itself, before 2 and 10.
pub fn write(primitive: Primitive, value: &Value) -> Result<Vec<u8>, Refusal> {
    let mut fields = Fields::new(ALONE);
    match (primitive, value) {
        (Primitive::Int(bytes), Value::Number(n)) => fields.int(bytes, *n),
        (Primitive::Boolean, Value::Number(n)) => fields.int(1, (*n != 0).into()),
        (Primitive::UnsignedVarint, Value::Number(n)) => fields.unsigned_varint((*n as u64).into()),
        (Primitive::Varint, Value::Number(n)) => {
            fields.must(i32::try_from(*n).is_ok(), 11);
            fields.zigzag(*n);
        }
        (Primitive::Varlong, Value::Number(n)) => fields.zigzag(*n),
        (Primitive::Count(form), Value::Number(n)) => fields.length(form, *n as usize),
        (Primitive::Bytes(form, _), Value::Contents(contents)) => fields.sized(form, contents),
        (Primitive::Text(form, _), Value::Contents(contents)) => fields.text(form, contents),
        (Primitive::Count(form) | Primitive::Bytes(form, _) | Primitive::Text(form, _), Value::Null) => {
            fields.null(form)
        }
        (primitive, value) => unreachable!("{primitive:?} is not given {value:?}"),
    }
    fields.judged()
}

/// Tagged fields by themselves: the own row is their count.
pub fn write_tagged_fields(_version: i16, given: &Given) -> Result<Vec<u8>, Refusal> {
    let [Own::Number(count)] = given.own else { unreachable!() };
    let mut tables = Tables::new(ALONE, given);
    tables.tag_count(*count);
    tables.tags_must_add_up(0);
    let mut fields = tables.judged()?;
    fields.tagged_fields(given, &mut given.tag_rows(0), *count);
    fields.judged()
}
