//! S1 to S5 of document 01, by name, S4 as document 02 amends it: what each is given, and what they say of its ending. S5 says only which side is refused.
use super::input::{Ending, Input, Node, Outcome};
use crate::words::Random;

/// A search of 01 that is taken, and what it says of it; what it doesn't say is `None`.
pub struct Example {
    pub name: &'static str,
    pub input: Input,
    ending: Option<Ending>,
    tried: Option<u64>,
    kept: Option<usize>,
}

impl Example {
    /// Whether the outcome is what 01 says.
    pub fn allows(&self, outcome: &Outcome) -> bool {
        self.ending.map_or(true, |ending| ending == outcome.ending)
            && self.tried.map_or(true, |tried| tried == outcome.tried)
            && self.kept.map_or(true, |kept| kept == outcome.kept())
    }
}

/// Sessions of one length, without constants: mark and words of each.
fn input(length: u8, sessions: &[(u8, &[u64])], unary: &[u8], binary: &[u8], bound: usize, room: usize) -> Input {
    Input {
        r: sessions.len(),
        m: sessions[0].1.len(),
        bound,
        room,
        constants: 0,
        marks: sessions.iter().map(|session| session.0).collect(),
        lengths: vec![length; sessions.len()],
        words: sessions.iter().flat_map(|session| session.1.to_vec()).collect(),
        unary: unary.to_vec(),
        binary: binary.to_vec(),
    }
}

fn found(code: u8, left: u16, right: u16, size: u8) -> Option<Ending> {
    Some(Ending::Found(Node {
        code,
        left,
        right,
        size,
    }))
}

const UNARY: [u8; 5] = [0, 1, 2, 3, 4];
const BINARY: [u8; 6] = [5, 6, 7, 8, 9, 10];

/// The room that the program has, where 01 names none.
const ROOM: usize = 200;

/// S5's numbers, each the largest or one above it: p holds everywhere, and all sessions are good.
fn limits(length: u8, r: usize, bound: usize, room: usize) -> Input {
    let sessions: Vec<(u8, &[u64])> = vec![(1, &[u64::MAX]); r];
    input(length, &sessions, &UNARY, &BINARY, bound, room)
}

/// S5's taken side again, with all of its room used: two sessions are alike but for their marks, so that nothing separates.
fn filled() -> Input {
    let mut random = Random::new(5);
    let words: Vec<[u64; 3]> = (0..31).map(|_| [random.next(), random.next(), random.next()]).collect();
    let mut sessions: Vec<(u8, &[u64])> = words.iter().map(|three| (1, &three[..])).collect();
    sessions.push((0, &words[0]));
    input(64, &sessions, &UNARY, &BINARY, 31, 4096)
}

pub fn taken() -> Vec<Example> {
    let example = |name, input, ending, tried, kept| Example {
        name,
        input,
        ending,
        tried,
        kept,
    };
    let two = |bound, room| input(1, &[(1, &[1]), (0, &[1])], &[0], &[], bound, room);
    let three = input(3, &[(1, &[3, 4]), (0, &[1, 4])], &[], &[7], 3, ROOM);
    let four = |mark, bound| input(0, &[(mark, &[0])], &UNARY, &BINARY, bound, ROOM);
    let one = input(2, &[(1, &[2]), (0, &[0])], &UNARY, &BINARY, 4, ROOM);
    let none = Some(Ending::None);
    vec![
        example("S1", one, found(1, 0, 0, 2), Some(3), Some(2)),
        example("S2, B = 2", two(2, ROOM), none, Some(2), Some(2)),
        example("S2, C = 1", two(2, 1), Some(Ending::Full(2)), Some(2), Some(1)),
        example("S2, B = 3 and C = 2", two(3, 2), none, Some(3), None),
        example("S3", three, found(7, 0, 1, 3), Some(5), Some(2)),
        example("S4, B = 2", four(1, 2), found(0, 0, 0, 2), Some(2), Some(1)),
        example("S4, B = 3", four(1, 3), found(0, 0, 0, 2), Some(2), Some(1)),
        example("S4, mark 0", four(0, 3), found(16, 0, 0, 1), Some(1), Some(0)),
        example("S5, 64, 32, 31, 4096", limits(64, 32, 31, 4096), None, None, None),
        example("S5, 64, 32, 31, 4096, all kept", filled(), None, None, Some(4096)),
    ]
}

/// S5's refused side, with 01's numbers.
pub fn refused() -> [(&'static str, Input, u64); 4] {
    [
        ("S5, length 65", limits(65, 32, 31, 4096), 4),
        ("S5, r = 33", limits(64, 33, 31, 4096), 1),
        ("S5, B = 32", limits(64, 32, 32, 4096), 2),
        ("S5, C = 4097", limits(64, 32, 31, 4097), 2),
    ]
}
