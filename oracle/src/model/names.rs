//! What a refusal speaks of: its message, and the row and the field in it. Rows and fields are counted while a body is read or
//! written, so a field that the version lacks is not counted.
use crate::line::{Refusal, NONE};

/// A primitive, or tagged fields, by themselves.
pub const ALONE: u8 = 0;
pub const API_VERSIONS_REQUEST: u8 = 1;
pub const API_VERSIONS_RESPONSE: u8 = 2;
pub const METADATA_REQUEST: u8 = 3;
pub const METADATA_RESPONSE: u8 = 4;
pub const FETCH_REQUEST: u8 = 5;
pub const FETCH_RESPONSE: u8 = 6;
/// A header, with the size before it.
pub const REQUEST_HEADER: u8 = 7;
pub const RESPONSE_HEADER: u8 = 8;

/// The most tables that a body has.
const TABLES: usize = 5;

/// A row of some table, or the body itself, and the field in it; none before its first field.
#[derive(Debug, Clone, Copy, PartialEq, Eq)]
pub struct Spot {
    row: i64,
    field: i64,
}

/// Where a reader or a writer is.
pub struct Cursor {
    pub message: u8,
    spot: Spot,
    /// How many rows were begun, of each table by rank.
    begun: [i64; TABLES],
}

impl Cursor {
    /// In the body itself, before its first field.
    pub fn new(message: u8) -> Self {
        Self { message, spot: Spot { row: NONE, field: NONE }, begun: [0; TABLES] }
    }

    /// The next field of the row begins.
    pub fn field(&mut self) {
        self.spot.field += 1;
    }

    /// The next row of a table begins. Gives the spot in the row around it, to which `leave` goes back.
    pub fn enter(&mut self, table: usize) -> Spot {
        let around = self.spot;
        self.spot = Spot { row: self.begun[table], field: NONE };
        self.begun[table] += 1;
        around
    }

    pub fn leave(&mut self, around: Spot) {
        self.spot = around;
    }

    /// A refusal of what is here. What is called by itself has neither row nor field.
    pub fn refusal(&self, number: u8, place: usize) -> Refusal {
        let nowhere = Refusal::at(self.message, number, place);
        match self.message {
            ALONE => nowhere,
            _ => Refusal { row: self.spot.row, field: self.spot.field, ..nowhere },
        }
    }
}
