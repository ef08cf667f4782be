//! What is lent to a search through the C boundary, and what has to stand there afterwards.
use super::input::{Ending, Input, Node, Outcome};
use crate::boundary::{Boundary, Function, Slice};

/// What is lent to a search and may be written.
#[derive(Clone, PartialEq, Eq)]
pub struct Lent {
    pub codes: Vec<u8>,
    pub lefts: Vec<u16>,
    pub rights: Vec<u16>,
    pub sizes: Vec<u8>,
    pub matrices: Vec<u64>,
    pub out: Vec<u64>,
}

/// How many places each lent slice has.
#[derive(Clone, Copy)]
pub struct Lens {
    pub codes: usize,
    pub lefts: usize,
    pub rights: usize,
    pub sizes: usize,
    pub matrices: usize,
    pub out: usize,
}

impl Lens {
    /// Just what document 01 asks for.
    pub fn asked(input: &Input) -> Self {
        Lens {
            codes: input.room,
            lefts: input.room,
            rights: input.room,
            sizes: input.room,
            matrices: input.room * input.r,
            out: 16,
        }
    }
}

impl Lent {
    /// Filled with a pattern, so that a place that is written shows.
    pub fn new(lens: Lens, seed: u64) -> Self {
        let at = |i: usize| (i as u64 ^ seed).wrapping_mul(0x9e37_79b9_7f4a_7c15) | 1 << 63 | 1 << 15 | 1 << 7;
        Lent {
            codes: (0..lens.codes).map(|i| at(i) as u8).collect(),
            lefts: (0..lens.lefts).map(|i| at(i) as u16).collect(),
            rights: (0..lens.rights).map(|i| !at(i) as u16).collect(),
            sizes: (0..lens.sizes).map(|i| at(i + 1) as u8).collect(),
            matrices: (0..lens.matrices).map(at).collect(),
            out: (0..lens.out).map(|i| at(i + 7)).collect(),
        }
    }

    /// The first `kept` formulas that an outcome has, each with r words.
    pub fn keep(&mut self, outcome: &Outcome, kept: usize, r: usize) {
        for (place, node) in outcome.nodes[..kept].iter().enumerate() {
            self.codes[place] = node.code;
            self.lefts[place] = node.left;
            self.rights[place] = node.right;
            self.sizes[place] = node.size;
        }
        self.matrices[..kept * r].copy_from_slice(&outcome.matrices[..kept * r]);
    }

    /// What is to stand there after a search that ended like this, by the C boundary's lines; all else stays.
    pub fn write(&mut self, outcome: &Outcome) {
        let kept = outcome.kept();
        self.keep(outcome, kept, if kept == 0 { 0 } else { outcome.matrices.len() / kept });
        match outcome.ending {
            Ending::Found(Node {
                code,
                left,
                right,
                size,
            }) => {
                self.out[0] = 1;
                self.out[1] = size as u64;
                self.out[4] = code as u64;
                self.out[5] = left as u64;
                self.out[6] = right as u64;
                self.out[7] = size as u64;
            }
            Ending::None => self.out[0] = 2,
            Ending::Full(size) => {
                self.out[0] = 3;
                self.out[1] = size as u64;
            }
        }
        self.out[2] = outcome.tried;
        self.out[3] = outcome.kept() as u64;
        self.out[8] = outcome.dropped;
    }

    /// The first place at which the two differ.
    pub fn difference(&self, due: &Lent) -> Option<String> {
        fn first<T: PartialEq + std::fmt::Display>(what: &str, here: &[T], due: &[T]) -> Option<String> {
            let at = (0..due.len()).find(|i| here[*i] != due[*i])?;
            Some(format!("{what}[{at}] is {} and has to be {}", here[at], due[at]))
        }
        first("out", &self.out, &due.out)
            .or_else(|| first("codes", &self.codes, &due.codes))
            .or_else(|| first("lefts", &self.lefts, &due.lefts))
            .or_else(|| first("rights", &self.rights, &due.rights))
            .or_else(|| first("sizes", &self.sizes, &due.sizes))
            .or_else(|| first("matrices", &self.matrices, &due.matrices))
    }
}

/// What `scarfpylon_search` answers: 0 or a refusal's number.
pub fn search(library: &mut dyn Boundary, input: &Input, lent: &mut Lent) -> u64 {
    let scalars = [
        input.r as u64,
        input.m as u64,
        input.bound as u64,
        input.room as u64,
        input.constants as u64,
    ];
    let mut slices = [
        Slice::Bytes(&input.marks),
        Slice::Bytes(&input.lengths),
        Slice::Words(&input.words),
        Slice::Bytes(&input.unary),
        Slice::Bytes(&input.binary),
        Slice::BytesOut(&mut lent.codes),
        Slice::HalvesOut(&mut lent.lefts),
        Slice::HalvesOut(&mut lent.rights),
        Slice::BytesOut(&mut lent.sizes),
        Slice::WordsOut(&mut lent.matrices),
        Slice::WordsOut(&mut lent.out),
    ];
    library.call(Function::Search, &scalars, &mut slices)
}
