//! forced: the two isolation levels, their numbers and the default, by the comments and uses in fetch.rs.
use crate::protocol::primitives::Int8;

#[derive(Debug, Clone, Copy, PartialEq, Eq, Default)]
pub enum IsolationLevel {
    #[default]
    ReadUncommitted = 0,
    ReadCommitted = 1,
}

impl From<IsolationLevel> for Int8 {
    fn from(level: IsolationLevel) -> Self {
        Int8(level as i8)
    }
}
