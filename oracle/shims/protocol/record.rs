//! chosen: a batch is all that is left of the field, since `Records` is compared at its first step, the NULLABLE_BYTES.
use super::traits::{ReadError, ReadType, WriteError, WriteType};
use std::io::{Read, Write};

#[derive(Debug, PartialEq, Eq)]
pub struct RecordBatch(pub Vec<u8>);

impl<R: Read> ReadType<R> for RecordBatch {
    fn read(reader: &mut R) -> Result<Self, ReadError> {
        let mut rest = vec![];
        reader.read_to_end(&mut rest)?;
        Ok(Self(rest))
    }
}

impl<W: Write> WriteType<W> for RecordBatch {
    fn write(&self, writer: &mut W) -> Result<(), WriteError> {
        Ok(writer.write_all(&self.0)?)
    }
}
