//! Numbers that look random and are the same for the same seed.

pub struct Rng(u64);

impl Rng {
    /// A sequence for each pair, so that any case can be made without those before it.
    pub fn new(seed: u64, index: u64) -> Self {
        let mut rng = Self(seed.wrapping_mul(0x9e37_79b9_7f4a_7c15) ^ index.wrapping_mul(0xd1b5_4a32_d192_ed03));
        rng.draw();
        rng
    }

    /// splitmix64.
    pub fn draw(&mut self) -> u64 {
        self.0 = self.0.wrapping_add(0x9e37_79b9_7f4a_7c15);
        let mut z = self.0;
        z = (z ^ (z >> 30)).wrapping_mul(0xbf58_476d_1ce4_e5b9);
        z = (z ^ (z >> 27)).wrapping_mul(0x94d0_49bb_1331_11eb);
        z ^ (z >> 31)
    }

    pub fn below(&mut self, n: usize) -> usize {
        (self.draw() % n as u64) as usize
    }

    pub fn one_in(&mut self, n: usize) -> bool {
        self.below(n) == 0
    }

    pub fn byte(&mut self) -> u8 {
        self.draw() as u8
    }

    pub fn pick<T: Copy>(&mut self, from: &[T]) -> T {
        from[self.below(from.len())]
    }

    /// Small, negative, next to a power of two, or anything.
    pub fn number(&mut self) -> i64 {
        match self.below(6) {
            0 => 0,
            1 => self.below(300) as i64,
            2 => -(self.below(300) as i64),
            3 | 4 => {
                let near = (1i64 << self.below(64)).wrapping_add(self.below(3) as i64 - 1);
                if self.one_in(2) {
                    near
                } else {
                    near.wrapping_neg()
                }
            }
            _ => self.draw() as i64,
        }
    }

    /// A number that fits so many bytes, its ends more often than others.
    pub fn number_of(&mut self, bytes: usize) -> i64 {
        let drop = 64 - 8 * bytes as u32;
        match self.below(8) {
            0 => i64::MIN >> drop,
            1 => i64::MAX >> drop,
            _ => (self.number() << drop) >> drop,
        }
    }

    /// The length of a text or of data: short, and now and then around a boundary of its length field.
    pub fn length(&mut self) -> usize {
        match self.below(300) {
            0..=3 => 125 + self.below(6),
            4 => 16_382 + self.below(4),
            5 => 32_765 + self.below(5),
            6..=40 => 0,
            _ => self.below(12),
        }
    }

    /// Well-formed text of about so many bytes. Long ones are mostly one letter, so that their lines are short.
    pub fn text(&mut self, length: usize) -> Vec<u8> {
        let mut text = Vec::with_capacity(length + 4);
        if length > 200 {
            text.resize(length - 20, b'a' + self.below(26) as u8);
        }
        while text.len() < length {
            let (low, span) = self.pick(&[
                (0x20, 0x5f),
                (0x20, 0x5f),
                (0x20, 0x5f),
                (0, 0x80),
                (0x80, 0x780),
                (0x800, 0xf800),
                (0x10000, 0x100000),
            ]);
            let character = char::from_u32(low + self.below(span) as u32).unwrap_or('\u{d7ff}');
            text.extend(character.to_string().bytes());
        }
        text
    }

    pub fn data(&mut self, length: usize) -> Vec<u8> {
        let mut data: Vec<u8> = (0..length.min(20)).map(|_| self.byte()).collect();
        data.resize(length, self.byte());
        data
    }
}
