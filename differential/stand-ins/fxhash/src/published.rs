//! The published algorithm, for measuring alone: rotate, xor, multiply, word by word. It can collide.
use std::collections::HashMap;
use std::hash::{BuildHasherDefault, Hasher};

pub type FxHashMap<K, V> = HashMap<K, V, BuildHasherDefault<FxHasher64>>;

/// Nothing is kept between two searches.
pub fn forget() {}

#[derive(Default, Clone, Copy)]
pub struct FxHasher64 {
    hash: u64,
}

impl FxHasher64 {
    #[inline]
    fn word(&mut self, word: u64) {
        self.hash = (self.hash.rotate_left(5) ^ word).wrapping_mul(0x517c_c1b7_2722_0a95);
    }
}

impl Hasher for FxHasher64 {
    #[inline]
    fn write(&mut self, bytes: &[u8]) {
        let mut words = bytes.chunks_exact(8);
        for word in &mut words {
            self.word(u64::from_le_bytes(word.try_into().unwrap()));
        }
        let mut rest = words.remainder();
        if rest.len() >= 4 {
            self.word(u32::from_le_bytes(rest[..4].try_into().unwrap()) as u64);
            rest = &rest[4..];
        }
        for byte in rest {
            self.word(*byte as u64);
        }
    }

    #[inline]
    fn write_u8(&mut self, x: u8) {
        self.word(x as u64);
    }

    #[inline]
    fn write_u16(&mut self, x: u16) {
        self.word(x as u64);
    }

    #[inline]
    fn write_u32(&mut self, x: u32) {
        self.word(x as u64);
    }

    #[inline]
    fn write_u64(&mut self, x: u64) {
        self.word(x);
    }

    #[inline]
    fn write_usize(&mut self, x: usize) {
        self.word(x as u64);
    }

    #[inline]
    fn finish(&self) -> u64 {
        self.hash
    }
}
