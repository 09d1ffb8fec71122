//! The Rust that Befrolan carries over, run beside the rules: see README.md.
include!(concat!(env!("OUT_DIR"), "/root.rs"));

pub mod calls;
pub mod case;
pub mod judge;
pub mod line;
pub mod make;
pub mod model;
pub mod parse;
pub mod rust;
pub mod stored;
pub mod tally;
pub mod token;
