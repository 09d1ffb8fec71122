use std::error::Error;
use std::fmt;

/// Why a call was refused: the number of the rules (docs/RULES.md, section 10), the place in the message, and for
/// [`Refusal::NO_ROOM`] what is needed.
///
/// Reading, the place is a byte of the message; writing, it is always 0. A refused call leaves everything that it was lent
/// as it was.
#[derive(Clone, Copy, Debug, PartialEq, Eq, Hash)]
pub struct Refusal {
    /// The number, from 1 to 14.
    pub number: u8,
    /// The byte of the message, or of the frame, that the refusal is about.
    pub place: usize,
    /// The bytes that an output needs; 0 for every other number. Room for rows is found by the calls themselves.
    pub need: usize,
}

impl Refusal {
    /// The message has no such version, or there is no such header.
    pub const NO_VERSION: u8 = 1;
    /// The message, or what would be written, has over 1,048,576 bytes; of a frame to write, header and body together.
    pub const TOO_LONG: u8 = 2;
    /// The bytes end inside a primitive; at 0, where a frame is read, before the end of the frame.
    pub const BYTES_END: u8 = 3;
    /// A length or count is below what is allowed.
    pub const LENGTH_BELOW: u8 = 4;
    /// The tenth byte of a varint continues.
    pub const VARINT_CONTINUES: u8 = 5;
    /// A compact string or compact bytes have the length 0.
    pub const LENGTH_ZERO: u8 = 6;
    /// A text is not UTF-8. On reading the place is where its first sequence starts that is ill-formed, or cut by the text's
    /// end: what is before that in the text is well-formed.
    pub const NOT_TEXT: u8 = 7;
    /// The items are null, in a whole read.
    pub const NULL_ITEMS: u8 = 8;
    /// Bytes are left over, in a whole read.
    pub const BYTES_LEFT: u8 = 9;
    /// The output is too small.
    pub const NO_ROOM: u8 = 10;
    /// A number that its field cannot hold, or a STRING or NULLABLE_STRING over 32,767 bytes.
    pub const TOO_WIDE: u8 = 11;
    /// Rows or ranges that contradict each other.
    pub const BAD_TABLES: u8 = 13;
    /// The size before a frame is below 0 or over 1,048,576.
    pub const BAD_SIZE: u8 = 14;

    pub(crate) fn of(number: i64, place: i64, need: i64) -> Refusal {
        Refusal { number: number as u8, place: place as usize, need: need as usize }
    }
}

/// What each number means, in words; data/refusals.txt has the same.
const WORDS: [&str; 15] = [
    "accepted",
    "there is no such version, or no such header",
    "the message has more than 1,048,576 bytes",
    "the message ends inside a field",
    "a length or count is below what is allowed",
    "a varint goes on behind its tenth byte",
    "a compact length is 0 where null is not allowed",
    "a text is not UTF-8",
    "the items are null, and the body was read whole",
    "bytes are left over, and the body was read whole",
    "there is too little room",
    "a number or text does not fit its field",
    "a group of seven bits does not fit a byte",
    "counts or ranges contradict what was lent",
    "the size before the frame is below 0 or over 1,048,576",
];

/// As `3 at byte 12: the message ends inside a field`; with the need, where there is too little room.
impl fmt::Display for Refusal {
    fn fmt(&self, f: &mut fmt::Formatter<'_>) -> fmt::Result {
        let Refusal { number, place, need } = *self;
        let words = WORDS.get(usize::from(number)).copied().unwrap_or("unknown");
        match number {
            Refusal::NO_ROOM => write!(f, "{number}: {words}: {need} are needed"),
            Refusal::BYTES_END..=Refusal::BYTES_LEFT => write!(f, "{number} at byte {place}: {words}"),
            _ => write!(f, "{number}: {words}"),
        }
    }
}

impl Error for Refusal {}
