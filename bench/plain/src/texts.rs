//! The texts of each dimension with their codes, and a fast hash for them.
use indexmap::IndexSet;
use std::hash::{BuildHasherDefault, Hasher};

/// A multiplying hash of eight bytes a step. Hostile texts can be chosen to collide.
#[derive(Default, Clone, Copy)]
pub struct Mixer(u64);

impl Mixer {
    fn mix(&mut self, word: u64) {
        self.0 = (self.0.rotate_left(5) ^ word).wrapping_mul(0x9E37_79B9_7F4A_7C15);
    }
}

impl Hasher for Mixer {
    fn write(&mut self, bytes: &[u8]) {
        let mut rest = bytes;
        while rest.len() >= 8 {
            let (word, tail) = rest.split_at(8);
            self.mix(u64::from_le_bytes(word.try_into().unwrap_or([0; 8])));
            rest = tail;
        }
        let word = rest.iter().fold(0, |word, &byte| word << 8 | u64::from(byte));
        self.mix(word ^ (bytes.len() as u64) << 56);
    }
    fn write_u8(&mut self, value: u8) {
        self.mix(u64::from(value));
    }
    fn write_u32(&mut self, value: u32) {
        self.mix(u64::from(value));
    }
    fn write_u64(&mut self, value: u64) {
        self.mix(value);
    }
    fn finish(&self) -> u64 {
        self.0 ^ self.0 >> 29
    }
}

pub type Fast = BuildHasherDefault<Mixer>;

/// The texts of a dimension. A text's place is its code.
#[derive(Default, Clone)]
pub struct Texts {
    set: IndexSet<Box<[u8]>, Fast>,
}

impl Texts {
    pub fn len(&self) -> usize {
        self.set.len()
    }

    pub fn code(&self, text: &[u8]) -> Option<u32> {
        self.set.get_index_of(text).map(|place| place as u32)
    }

    pub fn learn(&mut self, text: &[u8]) -> u32 {
        match self.code(text) {
            Some(code) => code,
            None => self.set.insert_full(text.into()).0 as u32,
        }
    }

    pub fn text(&self, code: u32) -> &[u8] {
        &self.set[code as usize]
    }

    pub fn truncate(&mut self, len: usize) {
        self.set.truncate(len);
    }

    pub fn iter(&self) -> impl Iterator<Item = &[u8]> {
        self.set.iter().map(|text| &text[..])
    }

    pub fn ranks(&self) -> Ranks {
        let mut codes: Vec<u32> = (0..self.len() as u32).collect();
        codes.sort_unstable_by(|a, b| self.text(*a).cmp(self.text(*b)));
        let mut of_code = vec![0; codes.len()];
        for (rank, code) in codes.iter().enumerate() {
            of_code[*code as usize] = rank as u32;
        }
        Ranks { of_code, codes }
    }
}

/// The codes in the order of their texts' bytes, and the place of each code among them.
#[derive(Default, Clone)]
pub struct Ranks {
    pub of_code: Vec<u32>,
    pub codes: Vec<u32>,
}
