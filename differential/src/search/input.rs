//! What a search is given, and how it ends.
use std::fmt;

use crate::query::ones;

/// The input of a search, good or not. The slices may be longer than asked: the rest is not looked at.
#[derive(Clone)]
pub struct Input {
    pub r: usize,
    pub m: usize,
    pub bound: usize,
    pub room: usize,
    pub constants: u8,
    pub marks: Vec<u8>,
    pub lengths: Vec<u8>,
    /// m per session, as in the session file.
    pub words: Vec<u64>,
    pub unary: Vec<u8>,
    pub binary: Vec<u8>,
}

/// Operator code, left place (or a proposition's number), right place, size.
#[derive(Clone, Copy, Debug, PartialEq, Eq)]
pub struct Node {
    pub code: u8,
    pub left: u16,
    pub right: u16,
    pub size: u8,
}

#[derive(Clone, Copy, Debug, PartialEq, Eq)]
pub enum Ending {
    Found(Node),
    None,
    Full(u8),
}

/// How a search ends, and what it keeps: nodes, and r words for each.
#[derive(Clone, Debug, PartialEq, Eq)]
pub struct Outcome {
    pub ending: Ending,
    pub tried: u64,
    pub dropped: u64,
    pub nodes: Vec<Node>,
    pub matrices: Vec<u64>,
    /// How many were tried when each was kept, itself among them.
    pub kept_at: Vec<u64>,
}

impl Input {
    pub fn word(&self, session: usize, proposition: usize) -> u64 {
        self.words[session * self.m + proposition]
    }

    /// The word with a bit for each place of a formula's word in the session.
    pub fn mask(&self, session: usize) -> u64 {
        ones(self.lengths[session].max(1) as u64)
    }

    /// Whether some session is empty: then the Rust, which accepts nothing there, can't be the judge.
    pub fn has_empty(&self) -> bool {
        self.lengths[..self.r].contains(&0)
    }

    /// The same without its empty sessions, if any others are left.
    pub fn without_empty(&self) -> Option<Input> {
        let left: Vec<usize> = (0..self.r).filter(|j| self.lengths[*j] > 0).collect();
        let mut input = self.clone();
        input.r = left.len();
        input.marks = left.iter().map(|j| self.marks[*j]).collect();
        input.lengths = left.iter().map(|j| self.lengths[*j]).collect();
        input.words = left
            .iter()
            .flat_map(|j| (0..self.m).map(|p| self.word(*j, p)))
            .collect();
        (input.r > 0).then_some(input)
    }

    /// Smaller inputs are reported first.
    pub fn size(&self) -> impl Ord {
        let snapshots: usize = self.lengths.iter().map(|n| *n as usize).sum();
        let codes = self.unary.len() + self.binary.len();
        (self.r * self.m * (1 + snapshots) + codes, self.bound, self.room)
    }
}

impl fmt::Display for Input {
    fn fmt(&self, f: &mut fmt::Formatter<'_>) -> fmt::Result {
        write!(f, "r {} m {} B {} C {} ", self.r, self.m, self.bound, self.room)?;
        write!(f, "constants {} marks {:?} ", self.constants, self.marks)?;
        write!(f, "lengths {:?} words {:x?} ", self.lengths, self.words)?;
        write!(f, "unary {:?} binary {:?}", self.unary, self.binary)
    }
}

impl Outcome {
    pub fn kept(&self) -> usize {
        self.nodes.len()
    }

    /// How many were kept when so many had been tried.
    pub fn kept_by(&self, tried: u64) -> usize {
        self.kept_at.iter().filter(|at| **at <= tried).count()
    }
}
