//! Numbers as 32-bit words: written big-endian into vectors, shown in hex where a check fails.

use glam::Vec2;

/// All NaNs are written as this one, since IEEE 754 leaves sign and payload open.
const NAN: u32 = 0x7FC0_0000;

pub fn word_of(number: f32) -> u32 {
    if number.is_nan() {
        NAN
    } else {
        number.to_bits()
    }
}

/// Both NaN, or the same bits.
pub fn same(a: f32, b: f32) -> bool {
    word_of(a) == word_of(b)
}

pub fn same_vector(a: Vec2, b: Vec2) -> bool {
    same(a.x, b.x) && same(a.y, b.y)
}

pub fn hex(number: f32) -> String {
    format!("{:08X}", number.to_bits())
}

pub fn hex_vector(vector: Vec2) -> String {
    format!("({} {})", hex(vector.x), hex(vector.y))
}

pub fn hex_bytes(bytes: &[u8]) -> String {
    bytes.iter().map(|byte| format!("{byte:02X}")).collect()
}

/// Big-endian words, one after the other.
pub struct Words {
    bytes: Vec<u8>,
}

impl Words {
    /// The records of all cases, one after the other.
    pub fn of<Case>(cases: &[Case], write_record: fn(&mut Words, &Case)) -> Vec<u8> {
        let mut words = Words::new();
        for case in cases {
            write_record(&mut words, case);
        }
        words.into_bytes()
    }

    pub fn new() -> Words {
        Words { bytes: Vec::new() }
    }

    pub fn word(&mut self, word: u32) {
        self.bytes.extend_from_slice(&word.to_be_bytes());
    }

    /// Two words, the high one first.
    pub fn long_word(&mut self, word: u64) {
        self.bytes.extend_from_slice(&word.to_be_bytes());
    }

    pub fn number(&mut self, number: f32) {
        self.word(word_of(number));
    }

    /// The number's own bits, also a NaN's.
    pub fn bits(&mut self, number: f32) {
        self.word(number.to_bits());
    }

    pub fn vector(&mut self, vector: Vec2) {
        self.number(vector.x);
        self.number(vector.y);
    }

    /// Bytes as they stand.
    pub fn record(&mut self, bytes: &[u8]) {
        self.bytes.extend_from_slice(bytes);
    }

    pub fn into_bytes(self) -> Vec<u8> {
        self.bytes
    }
}
