//! forced: `new`, `push`, `read_exact` and the conversion into a `Vec`, by their uses in primitives.rs and messages/mod.rs.
//! Chosen: room is made as bytes and elements come, so that a length far beyond the message ends with the message.
use std::io::{self, Read};

/// What is reserved at once, at first; then as much again as there is, up to the most.
const BLOCK: usize = 1 << 10;
const MOST: usize = 1 << 20;

pub struct VecBuilder<T> {
    elements: Vec<T>,
    expected: usize,
}

impl<T> VecBuilder<T> {
    pub fn new(expected: usize) -> Self {
        let most = BLOCK / std::mem::size_of::<T>().max(1);
        Self { elements: Vec::with_capacity(expected.min(most)), expected }
    }

    pub fn push(&mut self, element: T) {
        self.elements.push(element);
    }
}

impl VecBuilder<u8> {
    pub fn read_exact<R: Read>(mut self, reader: &mut R) -> io::Result<Self> {
        while self.elements.len() < self.expected {
            let from = self.elements.len();
            self.elements.resize(self.expected.min(from + from.clamp(BLOCK, MOST)), 0);
            reader.read_exact(&mut self.elements[from..])?;
        }
        Ok(self)
    }
}

impl<T> From<VecBuilder<T>> for Vec<T> {
    fn from(builder: VecBuilder<T>) -> Self {
        builder.elements
    }
}
