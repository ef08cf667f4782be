//! A third voice: document 01's walk, with document 02's reading of the empty trace, written from their prose alone and position by position, slow and
//! plain. It shares nothing with the Rust's files, and is the judge where a session is empty.
use super::input::{Ending, Input, Node, Outcome};

/// Whether the formula holds at position i below n, or at 0 where n is 0, from where its children hold.
fn holds(code: u8, n: u32, i: u32, f: u64, g: u64) -> bool {
    let at = |word: u64, j: u32| word >> j & 1 == 1;
    match code {
        0 => !at(f, i),
        1 => i + 1 >= n || at(f, i + 1),
        2 => i + 1 < n && at(f, i + 1),
        3 => (i..n).any(|j| at(f, j)),
        4 => (i..n).all(|j| at(f, j)),
        5 => at(f, i) || at(g, i),
        6 => at(f, i) && at(g, i),
        7 => (i..n).any(|j| at(g, j) && (i..j).all(|k| at(f, k))),
        8 => (i..n).all(|j| at(g, j) || (i..j).any(|k| at(f, k))),
        9 => !at(f, i) || at(g, i),
        10 => at(f, i) == at(g, i),
        _ => panic!("no operator has the code {code}"),
    }
}

struct Walk<'a> {
    input: &'a Input,
    /// More candidates than this are not tried.
    limit: u64,
    tried: u64,
    dropped: u64,
    kept: Vec<(Node, Vec<u64>)>,
    kept_at: Vec<u64>,
}

impl Walk<'_> {
    fn apply(&self, code: u8, left: usize, right: usize) -> Vec<u64> {
        let row = |j: usize| {
            let n = self.input.lengths[j] as u32;
            let (f, g) = (self.kept[left].1[j], self.kept[right].1[j]);
            (0..n.max(1))
                .filter(|i| holds(code, n, *i, f, g))
                .fold(0, |word, i| word | 1 << i)
        };
        (0..self.input.r).map(row).collect()
    }

    /// One candidate; an ending if it decides.
    fn candidate(&mut self, node: Node, matrix: Vec<u64>) -> Option<Ending> {
        self.tried += 1;
        let accepts = |j: usize| matrix[j] & 1 == 1;
        if (0..self.input.r).all(|j| accepts(j) == (self.input.marks[j] == 1)) {
            return Some(Ending::Found(node));
        }
        if self.kept.iter().any(|kept| kept.1 == matrix) {
            self.dropped += 1;
            return None;
        }
        if self.kept.len() == self.input.room {
            return Some(Ending::Full(node.size));
        }
        self.kept.push((node, matrix));
        self.kept_at.push(self.tried);
        None
    }

    fn operator(&mut self, code: u8, left: usize, right: usize, size: usize) -> Option<Ending> {
        if self.tried > self.limit {
            return None;
        }
        let matrix = self.apply(code, left, right);
        let node = Node {
            code,
            left: left as u16,
            right: right as u16,
            size: size as u8,
        };
        self.candidate(node, matrix)
    }

    fn leaves(&mut self) -> Option<Ending> {
        let input = self.input;
        let leaf = |code, left| Node {
            code,
            left,
            right: 0,
            size: 1,
        };
        for p in 0..input.m {
            let matrix = (0..input.r).map(|j| input.word(j, p)).collect();
            let ending = self.candidate(leaf(16, p as u16), matrix);
            if ending.is_some() {
                return ending;
            }
        }
        if input.constants == 1 {
            let ending = self.candidate(leaf(17, 0), vec![0; input.r]);
            if ending.is_some() {
                return ending;
            }
            let matrix = (0..input.r).map(|j| input.mask(j)).collect();
            return self.candidate(leaf(18, 0), matrix);
        }
        None
    }

    fn of_size(&self, size: usize) -> Vec<usize> {
        (0..self.kept.len())
            .filter(|place| self.kept[*place].0.size as usize == size)
            .collect()
    }

    fn size(&mut self, s: usize) -> Option<Ending> {
        for f in self.of_size(s - 1) {
            for code in &self.input.unary {
                // A unary node's right field is 0, and so is the place that it doesn't look at.
                let ending = self.operator(*code, f, 0, s);
                if ending.is_some() {
                    return ending;
                }
            }
        }
        for i in (1..).take_while(|i| *i < s.div_ceil(2)) {
            for l in self.of_size(i) {
                for q in self.of_size(s - 1 - i) {
                    for code in &self.input.binary {
                        let mut ending = self.operator(*code, l, q, s);
                        if ending.is_none() && ![5, 6, 10].contains(code) {
                            ending = self.operator(*code, q, l, s);
                        }
                        if ending.is_some() {
                            return ending;
                        }
                    }
                }
            }
        }
        None
    }
}

/// How the walk of a good input ends, or the size at which it had tried more than `limit` candidates.
pub fn outcome(input: &Input, limit: u64) -> Result<Outcome, usize> {
    let mut walk = Walk {
        input,
        limit,
        tried: 0,
        dropped: 0,
        kept: vec![],
        kept_at: vec![],
    };
    let mut ending = walk.leaves();
    for s in 2..=input.bound {
        if ending.is_none() {
            ending = walk.size(s);
        }
        if walk.tried > limit {
            return Err(s);
        }
    }
    Ok(Outcome {
        ending: ending.unwrap_or(Ending::None),
        tried: walk.tried,
        dropped: walk.dropped,
        nodes: walk.kept.iter().map(|kept| kept.0).collect(),
        matrices: walk.kept.into_iter().flat_map(|kept| kept.1).collect(),
        kept_at: walk.kept_at,
    })
}
