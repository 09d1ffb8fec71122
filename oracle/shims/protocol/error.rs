//! chosen: an error code stays a 16-bit number, 0 meaning none, as the rules have it. Forced: `new`, by messages/*.rs.
use super::primitives::Int16;

#[derive(Debug, PartialEq, Eq, Clone, Copy)]
pub struct Error(pub i16);

impl Error {
    pub fn new(code: i16) -> Option<Self> {
        (code != 0).then_some(Self(code))
    }
}

impl From<Option<Error>> for Int16 {
    fn from(error: Option<Error>) -> Self {
        Int16(error.map_or(0, |e| e.0))
    }
}
