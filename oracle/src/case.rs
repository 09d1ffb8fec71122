//! A case, and its line.
use crate::calls::{HeaderNumber, Named, ReadBody, ReadFrame, WriteBody, WriteFrame};
use crate::line::{put_bytes, put_cells, put_word, Word};
use crate::model::primitives::Primitive;
use crate::model::write::{Given, Own, Value};
use std::io::Write;
use std::slice::from_ref;

pub enum Case {
    WellFormed(Vec<u8>),
    IsText(Vec<u8>),
    Read {
        call: &'static Named,
        message: Vec<u8>,
    },
    Write {
        call: &'static Named,
        room: usize,
        value: Value,
    },
    ReadBody {
        call: &'static ReadBody,
        version: i16,
        rooms: Vec<usize>,
        message: Vec<u8>,
    },
    WriteBody {
        call: &'static WriteBody,
        room: usize,
        version: i16,
        lent: Vec<u8>,
        own: Vec<Own>,
        tables: Vec<Vec<i64>>,
    },
    Agree(Vec<i64>),
    Host {
        version: i16,
        node: i64,
        message: Vec<u8>,
    },
    ReadFrame {
        call: &'static ReadFrame,
        header: i64,
        room: usize,
        message: Vec<u8>,
    },
    WriteFrame {
        call: &'static WriteFrame,
        room: usize,
        header: i64,
        lent: Vec<u8>,
        own: Vec<Own>,
        tags: Vec<i64>,
        body: Vec<u8>,
    },
    HeaderNumber {
        call: &'static HeaderNumber,
        key: i64,
        version: i64,
    },
}

impl Case {
    pub fn name(&self) -> &'static str {
        match self {
            Case::WellFormed(_) => "well_formed",
            Case::IsText(_) => "is_text",
            Case::Read { call, .. } => call.read,
            Case::Write { call, .. } => call.write,
            Case::ReadBody { call, .. } => call.name,
            Case::WriteBody { call, .. } => call.name,
            Case::Agree(_) => "agree",
            Case::Host { .. } => "host",
            Case::ReadFrame { call, .. } => call.name,
            Case::WriteFrame { call, .. } => call.name,
            Case::HeaderNumber { call, .. } => call.name,
        }
    }

    /// The version asked for, where the call has one.
    pub fn version(&self) -> Option<i16> {
        match self {
            Case::ReadBody { call, version, .. } => call.last.and(Some(*version)),
            Case::WriteBody { call, version, .. } => call.last.and(Some(*version)),
            Case::Host { version, .. } => Some(*version),
            _ => None,
        }
    }

    pub fn put(&self, line: &mut Vec<u8>) {
        line.extend(self.name().as_bytes());
        match self {
            Case::WellFormed(bytes) | Case::IsText(bytes) | Case::Read { message: bytes, .. } => put(line, bytes),
            Case::Write { call, room, value } => {
                write!(line, " {room} ").unwrap();
                match value {
                    Value::Number(n) if is_unsigned(call.primitive) => write!(line, "{}", *n as u64).unwrap(),
                    Value::Number(n) => write!(line, "{n}").unwrap(),
                    Value::Contents(contents) => put_bytes(line, contents),
                    Value::Null => put_word(line, &Word::Null),
                }
            }
            Case::ReadBody { call, version, rooms, message } => {
                put_version(line, call.last, *version);
                rooms.iter().for_each(|room| write!(line, " {room}").unwrap());
                put(line, message);
            }
            Case::WriteBody { call, room, version, lent, own, tables } => {
                write!(line, " {room}").unwrap();
                put_version(line, call.last, *version);
                put(line, lent);
                own.iter().for_each(|own| put_own(line, own));
                tables.iter().for_each(|cells| put_table(line, cells));
            }
            Case::Agree(cells) => put_table(line, cells),
            Case::Host { version, node, message } => {
                write!(line, " {version} {node}").unwrap();
                put(line, message);
            }
            Case::ReadFrame { header, room, message, .. } => {
                write!(line, " {header} {room}").unwrap();
                put(line, message);
            }
            Case::WriteFrame { room, header, lent, own, tags, body, .. } => {
                write!(line, " {room} {header}").unwrap();
                put(line, lent);
                own.iter().for_each(|own| put_own(line, own));
                put_table(line, tags);
                put(line, body);
            }
            Case::HeaderNumber { key, version, .. } => write!(line, " {key} {version}").unwrap(),
        }
    }

    /// What a writer of a body or of a header is given.
    pub fn given(&self) -> Option<Given<'_>> {
        match self {
            Case::WriteBody { lent, own, tables, .. } => Some(Given { lent, own, tables }),
            Case::WriteFrame { lent, own, tags, .. } => Some(Given { lent, own, tables: from_ref(tags) }),
            _ => None,
        }
    }
}

fn is_unsigned(primitive: Primitive) -> bool {
    matches!(primitive, Primitive::UnsignedVarint | Primitive::Count(_))
}

fn put(line: &mut Vec<u8>, bytes: &[u8]) {
    line.push(b' ');
    put_bytes(line, bytes);
}

fn put_table(line: &mut Vec<u8>, cells: &[i64]) {
    line.push(b' ');
    put_cells(line, cells);
}

fn put_version(line: &mut Vec<u8>, last: Option<i16>, version: i16) {
    if last.is_some() {
        write!(line, " {version}").unwrap();
    }
}

fn put_own(line: &mut Vec<u8>, own: &Own) {
    match own {
        Own::Number(n) => write!(line, " {n}").unwrap(),
        Own::Part(start, length) => write!(line, " {}:{}", *start as u64, *length as u64).unwrap(),
        Own::Flag(flag) => write!(line, " {}", u8::from(*flag)).unwrap(),
        Own::Null => line.extend(b" null"),
        Own::Absent => line.extend(b" absent"),
    }
}
