//! Every small input: one or two sessions of up to 2 snapshots with one proposition, or one session with two, every mark, at most one operator of
//! each group or all of them, with constants and without, and every bound and room from 1 to 4.
use super::input::Input;
use crate::query::ones;

/// A session: mark, length, words.
type Session = (u8, u8, Vec<u64>);

fn sessions(m: u32) -> Vec<Session> {
    let mut all = vec![];
    for mark in 0..=1 {
        for length in 0..=2u8 {
            // All words of the session at once, as digits of one number.
            let base = ones(length as u64) + 1;
            for number in 0..base.pow(m) {
                let words = (0..m).map(|p| number / base.pow(p) % base).collect();
                all.push((mark, length, words));
            }
        }
    }
    all
}

fn operators() -> Vec<(Vec<u8>, Vec<u8>)> {
    let one = |codes: std::ops::RangeInclusive<u8>| {
        let mut lists = vec![vec![]];
        lists.extend(codes.map(|code| vec![code]));
        lists
    };
    let mut all = vec![((0..=4).collect(), (5..=10).collect())];
    for unary in one(0..=4) {
        for binary in one(5..=10) {
            all.push((unary.clone(), binary));
        }
    }
    all
}

fn given() -> Vec<Vec<Session>> {
    let one = sessions(1);
    let mut all: Vec<Vec<Session>> = one.iter().map(|session| vec![session.clone()]).collect();
    for first in &one {
        all.extend(one.iter().map(|second| vec![first.clone(), second.clone()]));
    }
    all.extend(sessions(2).into_iter().map(|session| vec![session]));
    all
}

/// Hands over each of them, or, with a stride, each so many'th.
pub fn each(stride: usize, mut then: impl FnMut(Input)) {
    let operators = operators();
    let mut number = 0;
    for sessions in given() {
        for (unary, binary) in &operators {
            for settings in 0..32 {
                number += 1;
                if number % stride != 0 {
                    continue;
                }
                then(Input {
                    r: sessions.len(),
                    m: sessions[0].2.len(),
                    bound: 1 + settings % 4,
                    room: 1 + settings / 4 % 4,
                    constants: (settings / 16) as u8,
                    marks: sessions.iter().map(|session| session.0).collect(),
                    lengths: sessions.iter().map(|session| session.1).collect(),
                    words: sessions.iter().flat_map(|session| session.2.clone()).collect(),
                    unary: unary.clone(),
                    binary: binary.clone(),
                });
            }
        }
    }
}
