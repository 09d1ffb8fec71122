//! chosen: not the crate, which is not to be had. Zigzag over an unsigned varint by the rules of docs/RULES.md, section 2,
//! so nothing that goes through here is counted as a comparison.
use std::io::{Error, ErrorKind, Read, Result, Write};

/// The numbers that primitives.rs hands over: `i64` to read, `i32` and `i64` to write.
pub trait VarInt {
    fn zigzag(self) -> u64;
    fn back(carried: u64) -> Self;
}

impl VarInt for i64 {
    fn zigzag(self) -> u64 {
        ((self << 1) ^ (self >> 63)) as u64
    }
    fn back(carried: u64) -> Self {
        (carried >> 1) as i64 ^ -((carried & 1) as i64)
    }
}

impl VarInt for i32 {
    fn zigzag(self) -> u64 {
        i64::from(self).zigzag()
    }
    fn back(carried: u64) -> Self {
        i64::back(carried) as i32
    }
}

pub trait VarIntReader {
    fn read_varint<N: VarInt>(&mut self) -> Result<N>;
}

impl<R: Read> VarIntReader for R {
    fn read_varint<N: VarInt>(&mut self) -> Result<N> {
        let mut carried = 0;
        for i in 0..10 {
            let mut byte = [0];
            self.read_exact(&mut byte)?;
            carried |= u64::from(byte[0] & 0x7f) << (7 * i);
            if byte[0] < 0x80 {
                return Ok(N::back(carried));
            }
        }
        Err(Error::new(ErrorKind::InvalidData, "the tenth byte continues"))
    }
}

pub trait VarIntWriter {
    fn write_varint<N: VarInt>(&mut self, number: N) -> Result<usize>;
}

impl<W: Write> VarIntWriter for W {
    fn write_varint<N: VarInt>(&mut self, number: N) -> Result<usize> {
        let mut carried = number.zigzag();
        let mut bytes = vec![];
        while carried > 0x7f {
            bytes.push(carried as u8 | 0x80);
            carried >>= 7;
        }
        bytes.push(carried as u8);
        self.write_all(&bytes)?;
        Ok(bytes.len())
    }
}
