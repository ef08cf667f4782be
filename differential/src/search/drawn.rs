//! Random inputs of a search, of several kinds, each from a seed of its own so that any of them can be made again.
use std::rc::Rc;

use super::counted::{leaves, traces};
use super::input::Input;
use crate::empty;
use crate::formula::tree::FormulaTree;
use crate::ltl::{cm::CharMatrix, trace::Trace, Constant};
use crate::oracle;
use crate::words::Random;

/// What a kind of inputs has at most, and how many candidates are tried before the bound is lowered.
struct Kind {
    r: u64,
    m: u64,
    length: u64,
    bound: u64,
    rooms: (u64, u64),
    limit: u64,
    /// Whether there are few operators: long formulas stay small in number.
    few: bool,
}

const TINY: Kind = Kind {
    r: 3,
    m: 2,
    length: 3,
    bound: 8,
    rooms: (1, 24),
    limit: 5_000,
    few: false,
};
const SMALL: Kind = Kind {
    r: 6,
    m: 3,
    length: 8,
    bound: 31,
    rooms: (1, 120),
    limit: 5_000,
    few: false,
};
const WIDE: Kind = Kind {
    r: 32,
    m: 16,
    length: 64,
    bound: 31,
    rooms: (1, 300),
    limit: 3_000,
    few: false,
};
const LONG: Kind = Kind {
    r: 6,
    m: 2,
    length: 64,
    bound: 31,
    rooms: (1, 500),
    limit: 5_000,
    few: true,
};
/// Found late: several sessions, and marks that a larger formula gave.
const HARD: Kind = Kind {
    r: 12,
    m: 3,
    length: 10,
    bound: 31,
    rooms: (100, 1000),
    limit: 20_000,
    few: false,
};
const LARGE: Kind = Kind {
    r: 32,
    m: 16,
    length: 64,
    bound: 31,
    rooms: (500, 4096),
    limit: 60_000,
    few: false,
};

fn shuffled(random: &mut Random, mut codes: Vec<u8>) -> Vec<u8> {
    for i in (1..codes.len()).rev() {
        codes.swap(i, random.below(i as u64 + 1) as usize);
    }
    codes
}

/// A list of operators of one group: all, some or none of them.
fn operators(random: &mut Random, few: bool, codes: std::ops::RangeInclusive<u8>) -> Vec<u8> {
    let codes: Vec<u8> = codes.collect();
    if few {
        let count = random.below(3) as usize;
        return shuffled(random, codes).into_iter().take(count).collect();
    }
    match random.below(8) {
        0 | 1 => codes,
        2 | 3 => shuffled(random, codes),
        4 => vec![],
        _ => {
            let count = 1 + random.below(codes.len() as u64) as usize;
            shuffled(random, codes).into_iter().take(count).collect()
        }
    }
}

/// A formula of just that size from the operators at hand; smaller where they can't make one.
fn formula(random: &mut Random, input: &Input, size: u64) -> Rc<FormulaTree> {
    let binary = size >= 3 && !input.binary.is_empty();
    if binary && (input.unary.is_empty() || random.below(2) == 0) {
        let code = input.binary[random.below(input.binary.len() as u64) as usize];
        let low = 1 + random.below(size - 2);
        let left = formula(random, input, low);
        let right = formula(random, input, size - 1 - low);
        let op = oracle::binary(code);
        return Rc::new(FormulaTree::BinaryNode { op, left, right });
    }
    if size >= 2 && !input.unary.is_empty() {
        let code = input.unary[random.below(input.unary.len() as u64) as usize];
        let child = formula(random, input, size - 1);
        let op = oracle::unary(code);
        return Rc::new(FormulaTree::UnaryNode { op, child });
    }
    let mut leaves = leaves(input);
    // Now and then one that only the constants could spell.
    if random.below(20) == 0 {
        return Rc::new(FormulaTree::Const(Constant::True));
    }
    let at = random.below(leaves.len() as u64) as usize;
    Rc::new(leaves.swap_remove(at))
}

fn sessions(random: &mut Random, input: &mut Input, kind: &Kind) {
    let longest = 1 + random.below(kind.length);
    for j in 0..input.r {
        // Empty sessions, sessions of one length, sessions of any.
        let length = match random.below(8) {
            0 => 0,
            1 | 2 => longest,
            3 => kind.length,
            _ => random.below(longest + 1),
        };
        if j > 0 && random.below(12) == 0 {
            // The same session again, maybe with another mark.
            let twin = random.below(j as u64) as usize;
            input.lengths.push(input.lengths[twin]);
            for p in 0..input.m {
                input.words.push(input.word(twin, p));
            }
            continue;
        }
        input.lengths.push(length as u8);
        for _ in 0..input.m {
            input.words.push(random.word(length));
        }
    }
    if input.m > 1 && random.below(5) == 0 {
        // Two propositions that are equal everywhere.
        let (from, to) = (
            random.below(input.m as u64) as usize,
            random.below(input.m as u64) as usize,
        );
        for j in 0..input.r {
            input.words[j * input.m + to] = input.word(j, from);
        }
    }
}

/// Random marks, or those that a planted formula of the operators at hand gives, sometimes with one of them wrong.
fn mark(random: &mut Random, input: &Input, traces: &[Trace]) -> Vec<u8> {
    let how = random.below(10);
    if how < 3 {
        return (0..input.r).map(|_| random.below(2) as u8).collect();
    }
    let size = match random.below(3) {
        0 => 1 + random.below(4),
        1 => 3 + random.below(7),
        _ => 1 + random.below(input.bound as u64),
    };
    let planted = formula(random, input, size);
    let mut marks: Vec<u8> = planted
        .eval(traces)
        .accepted_vec()
        .into_iter()
        .map(|b| b as u8)
        .collect();
    for j in (0..input.r).filter(|j| input.lengths[*j] == 0) {
        marks[j] = empty::accepts(&planted) as u8;
    }
    if how == 3 {
        marks[random.below(input.r as u64) as usize] ^= 1;
    }
    marks
}

/// Marks that a leaf gives are found at once, so most of them are thrown back.
fn marks(random: &mut Random, input: &mut Input) {
    let traces = traces(input);
    let at_once: Vec<CharMatrix> = leaves(input).iter().map(|leaf| leaf.eval(&traces)).collect();
    for _ in 0..6 {
        input.marks = mark(random, input, &traces);
        let target: Vec<bool> = input.marks.iter().map(|mark| *mark == 1).collect();
        if !at_once.iter().any(|leaf| leaf.is_equivalent(&target)) {
            return;
        }
    }
}

/// The input of this number, and how many of its candidates are to be tried at most.
pub fn draw(number: u64) -> (Input, u64) {
    let mut random = Random::new(number.wrapping_mul(0x9e6c_63d0_876a_3f6b));
    let random = &mut random;
    let kind = match random.below(100) {
        0..=24 => TINY,
        25..=44 => SMALL,
        45..=59 => WIDE,
        60..=77 => LONG,
        78..=97 => HARD,
        _ => LARGE,
    };
    let (least, most) = kind.rooms;
    // Small rooms come up as often as large ones, and the largest now and then.
    let top = least + random.below(most - least + 1);
    let room = match random.below(8) {
        0 => most,
        1..=3 => top,
        _ => least + random.below(top - least + 1),
    };
    let mut input = Input {
        r: 1 + random.below(kind.r) as usize,
        m: 1 + random.below(kind.m) as usize,
        bound: 1 + random.below(kind.bound) as usize,
        room: room as usize,
        constants: random.below(2) as u8,
        marks: vec![],
        lengths: vec![],
        words: vec![],
        unary: operators(random, kind.few, 0..=4),
        binary: operators(random, kind.few, 5..=10),
    };
    sessions(random, &mut input, &kind);
    marks(random, &mut input);
    (input, kind.limit)
}
