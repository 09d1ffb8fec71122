//! Bodies laid out by hand.

/// Bytes, field behind field.
#[derive(Clone, Default)]
pub struct Body(pub Vec<u8>);

impl Body {
    pub fn int(&mut self, bytes: usize, number: i64) {
        self.0.extend(&number.to_be_bytes()[8 - bytes..]);
    }

    pub fn ints(&mut self, bytes: usize, numbers: &[i64]) {
        numbers.iter().for_each(|number| self.int(bytes, *number));
    }

    pub fn text(&mut self, contents: &[u8]) {
        self.int(2, contents.len() as i64);
        self.0.extend(contents);
    }

    pub fn null_text(&mut self) {
        self.int(2, -1);
    }

    /// BYTES, or records that are not null.
    pub fn data(&mut self, contents: &[u8]) {
        self.int(4, contents.len() as i64);
        self.0.extend(contents);
    }
}
