//! Bytes that are a value's, or nearly: one field in so many is made strange.
use super::rng::Rng;
use crate::model::primitives::{Form, Null, Primitive};

/// Where a count or a length can go wrong, as 64 bits.
pub const BOUNDARIES: [u64; 22] = [
    0,
    1,
    2,
    127,
    128,
    16_383,
    16_384,
    32_766,
    32_767,
    32_768,
    32_769,
    (1 << 31) - 1,
    1 << 31,
    (1 << 32) - 1,
    1 << 32,
    (1 << 63) - 1,
    1 << 63,
    u64::MAX,
    u64::MAX - 1,
    u64::MAX - 32_767,
    u64::MAX - 32_768,
    u64::MAX - (1 << 31) + 1,
];

/// Shortest form.
pub fn varint(mut number: u64) -> Vec<u8> {
    let mut bytes = vec![];
    while number >= 128 {
        bytes.push(number as u8 | 128);
        number >>= 7;
    }
    bytes.push(number as u8);
    bytes
}

/// The same number in so many bytes, where that is longer; up to eleven, which is one too many.
pub fn padded(number: u64, size: usize) -> Vec<u8> {
    let mut bytes = varint(number);
    while bytes.len() < size {
        *bytes.last_mut().expect("a varint has bytes") |= 128;
        bytes.push(0);
    }
    bytes
}

/// A length or count as it is carried, whatever its value; compact ones with 1 added.
pub fn carried(form: Form, n: u64) -> Vec<u8> {
    match form {
        Form::Int16 => n.to_be_bytes()[6..].to_vec(),
        Form::Int32 => n.to_be_bytes()[4..].to_vec(),
        Form::Compact => varint(n.wrapping_add(1)),
    }
}

/// The most contents that, with their length in front, have at most so many bytes.
pub fn filling(form: Form, size: usize) -> usize {
    (0..size).rev().find(|n| n + carried(form, *n as u64).len() <= size).unwrap_or(0)
}

pub struct Wire<'r> {
    pub rng: &'r mut Rng,
    pub bytes: Vec<u8>,
    /// One field in so many is strange; with 0 none is.
    pub odd: usize,
}

impl<'r> Wire<'r> {
    pub fn new(rng: &'r mut Rng) -> Self {
        let odd = rng.pick(&[0, 0, 30, 8, 3]);
        Self { rng, bytes: vec![], odd }
    }

    fn strange(&mut self) -> bool {
        self.odd > 0 && self.rng.one_in(self.odd)
    }

    pub fn int(&mut self, bytes: usize) {
        let number = self.rng.number_of(bytes);
        self.bytes.extend(&number.to_be_bytes()[8 - bytes..]);
    }

    /// Strange ones are padded, up to the tenth byte with any data bits in it, and beyond.
    pub fn varint(&mut self, number: u64) {
        if !self.strange() {
            return self.bytes.extend(varint(number));
        }
        let size = 1 + self.rng.below(11);
        let mut bytes = padded(number, size);
        if bytes.len() == 10 {
            bytes[9] |= self.rng.byte() & if self.rng.one_in(4) { 0xfe } else { 0x7e };
        }
        self.bytes.extend(bytes);
    }

    fn count(&mut self, form: Form, n: usize) {
        let mut n = n as u64;
        if self.strange() {
            n = match self.rng.below(3) {
                0 => n + 1,
                1 => n.wrapping_sub(1),
                _ => self.rng.pick(&BOUNDARIES),
            };
        }
        match form {
            Form::Compact => self.varint(n.wrapping_add(1)),
            _ => self.bytes.extend(carried(form, n)),
        }
    }

    pub fn sized(&mut self, form: Form, null: Null, is_text: bool) {
        if null != Null::Never && self.rng.one_in(5) {
            return self.bytes.extend(carried(form, u64::MAX));
        }
        let length = self.rng.length();
        let mut contents = if is_text { self.rng.text(length) } else { self.rng.data(length) };
        if is_text && self.strange() {
            damage(self.rng, &mut contents);
        }
        self.count(form, contents.len());
        self.bytes.extend(contents);
    }

    pub fn tagged_fields(&mut self) {
        let tags = if self.rng.one_in(2) { 0 } else { self.rng.below(4) };
        let told = if self.strange() { self.rng.pick(&BOUNDARIES) } else { tags as u64 };
        self.varint(told);
        for _ in 0..tags {
            let tag = self.rng.number() as u64;
            self.varint(tag);
            let length = self.rng.length();
            let data = self.rng.data(length);
            let told = if self.strange() { self.rng.pick(&BOUNDARIES) } else { length as u64 };
            self.varint(told);
            self.bytes.extend(data);
        }
    }

    pub fn array(&mut self, form: Form, element: impl Fn(&mut Self)) {
        if self.rng.one_in(10) {
            return self.bytes.extend(carried(form, u64::MAX));
        }
        let elements = self.rng.below(4);
        self.count(form, elements);
        (0..elements).for_each(|_| element(self));
    }

    pub fn primitive(&mut self, primitive: Primitive) {
        match primitive {
            Primitive::Int(bytes) => self.int(bytes),
            Primitive::Boolean => self.int(1),
            Primitive::UnsignedVarint | Primitive::Varlong | Primitive::Varint => {
                let number = self.rng.number() as u64;
                self.varint(number);
            }
            Primitive::Count(form) => {
                let n = if self.rng.one_in(2) { self.rng.pick(&BOUNDARIES) } else { self.rng.number() as u64 };
                self.bytes.extend(carried(form, n));
            }
            Primitive::Bytes(form, null) => self.sized(form, null, false),
            Primitive::Text(form, null) => self.sized(form, null, true),
        }
    }

    pub fn response(&mut self, version: i16) {
        let flexible = version >= 3;
        self.int(2);
        self.array(if flexible { Form::Compact } else { Form::Int32 }, |wire| {
            (0..3).for_each(|_| wire.int(2));
            if flexible {
                wire.tagged_fields();
            }
        });
        if version >= 1 {
            self.int(4);
        }
        if flexible {
            self.tagged_fields();
        }
    }

    pub fn request(&mut self, version: i16) {
        if version >= 3 {
            self.sized(Form::Compact, Null::Never, true);
            self.sized(Form::Compact, Null::Never, true);
            self.tagged_fields();
        }
    }
}

/// One byte changed, put in, or taken out.
pub fn damage(rng: &mut Rng, bytes: &mut Vec<u8>) {
    let at = rng.below(bytes.len() + 1);
    let byte = if rng.one_in(2) { rng.pick(&[0, 1, 2, 0x7f, 0x80, 0xff]) } else { rng.byte() };
    match rng.below(3) {
        0 => bytes.insert(at, byte),
        1 if at < bytes.len() => {
            bytes.remove(at);
        }
        _ if at < bytes.len() => bytes[at] = byte,
        _ => bytes.push(byte),
    }
}

/// The bytes as they are, cut, with fresh ones behind, or damaged once or twice.
pub fn varied(rng: &mut Rng, mut bytes: Vec<u8>) -> Vec<u8> {
    match rng.below(8) {
        0 => bytes.truncate(rng.below(bytes.len() + 1)),
        1 => (0..rng.below(9)).for_each(|_| bytes.push(rng.byte())),
        2 | 3 => damage(rng, &mut bytes),
        4 => (0..2).for_each(|_| damage(rng, &mut bytes)),
        _ => {}
    }
    bytes
}
