//! The words that the operators are asked about: edge words, runs, and random words of several kinds.
use crate::query::ones;

/// Random numbers that are the same on every run (splitmix64).
pub struct Random(u64);

impl Random {
    pub fn new(seed: u64) -> Self {
        Random(seed)
    }

    pub fn next(&mut self) -> u64 {
        self.0 = self.0.wrapping_add(0x9e37_79b9_7f4a_7c15);
        let mut z = self.0;
        z = (z ^ (z >> 30)).wrapping_mul(0xbf58_476d_1ce4_e5b9);
        z = (z ^ (z >> 27)).wrapping_mul(0x94d0_49bb_1331_11eb);
        z ^ (z >> 31)
    }

    pub fn below(&mut self, bound: u64) -> u64 {
        self.next() % bound
    }

    /// A word of this length. Even bits alone would hardly ever give `F`, `G`, `U` or `R` a long run to follow,
    /// so sparse words, dense words and words made of runs come up as often.
    pub fn word(&mut self, length: u64) -> u64 {
        let word = match self.below(4) {
            0 => self.next(),
            1 => (0..self.below(4) + 1).fold(u64::MAX, |word, _| word & self.next()),
            2 => (0..self.below(4) + 1).fold(0, |word, _| word | self.next()),
            _ => (0..self.below(3) + 1).fold(0, |word, _| word | self.run(length)),
        };
        word & ones(length)
    }

    /// All ones from one place up to another.
    fn run(&mut self, length: u64) -> u64 {
        let from = self.below(length + 1);
        let to = self.below(length + 1);
        ones(from) ^ ones(to)
    }
}

/// The few words at which an operator is most likely wrong.
pub fn core(length: u64) -> Vec<u64> {
    let full = ones(length);
    let low = full & 1;
    let high = full ^ (full >> 1);
    let alternating = 0x5555_5555_5555_5555 & full;
    sorted(vec![
        0,
        full,
        low,
        full ^ low,
        high,
        full ^ high,
        alternating,
        full ^ alternating,
    ])
}

/// The edge words: the core, each single bit, each bit missing, and ones up to or from each place.
pub fn edges(length: u64) -> Vec<u64> {
    let full = ones(length);
    let mut words = core(length);
    for i in 0..length {
        words.extend([1 << i, full ^ 1 << i, ones(i), full ^ ones(i)]);
    }
    sorted(words)
}

/// Ones from one place up to another and a single bit at that other: what `U` has to follow through each of its steps.
pub fn reaching_pairs(length: u64) -> Vec<(u64, u64)> {
    let mut pairs = vec![];
    for to in 0..length {
        for from in 0..=to {
            pairs.push((ones(from) ^ ones(to), 1 << to));
        }
    }
    pairs
}

fn sorted(mut words: Vec<u64>) -> Vec<u64> {
    words.sort_unstable();
    words.dedup();
    words
}
