//! forced: names, variants and conversions by their uses in primitives.rs and messages/*.rs. Which variant `?` makes of an
//! error is read off the same uses; no comparison looks at it.
use std::error::Error;
use std::fmt;
use std::io::{self, Read, Write};
use std::num::TryFromIntError;

macro_rules! error {
    ($name:ident) => {
        #[derive(Debug)]
        pub enum $name {
            IO(io::Error),
            Overflow(TryFromIntError),
            Malformed(Box<dyn Error + Send + Sync>),
        }

        impl From<io::Error> for $name {
            fn from(e: io::Error) -> Self {
                Self::IO(e)
            }
        }

        impl From<TryFromIntError> for $name {
            fn from(e: TryFromIntError) -> Self {
                Self::Overflow(e)
            }
        }

        impl fmt::Display for $name {
            fn fmt(&self, f: &mut fmt::Formatter<'_>) -> fmt::Result {
                fmt::Debug::fmt(self, f)
            }
        }

        impl Error for $name {}
    };
}

error!(ReadError);
error!(WriteError);

pub trait ReadType<R: Read>: Sized {
    fn read(reader: &mut R) -> Result<Self, ReadError>;
}

pub trait WriteType<W: Write>: Sized {
    fn write(&self, writer: &mut W) -> Result<(), WriteError>;
}
