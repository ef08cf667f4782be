//! `scarfpylon_check` against the Rust's `eval`, and document 02's reading of empty sessions: a random formula and the marks that it gives, right and
//! wrong; then broken input.
use super::judged::{Call, Judged, List};
use crate::boundary::Function;
use crate::empty;
use crate::formulas::{formula, names, Formula, Node};
use crate::ltl::trace::Trace;
use crate::oracle;
use crate::query::{ones, Seq};

/// The four slices of a formula's listed nodes, with some of it to spare: the shortest counts.
pub fn listed(nodes: &[Node]) -> Vec<List> {
    vec![
        List::Bytes(nodes.iter().map(|node| node.0).collect()),
        List::Halves(nodes.iter().map(|node| node.1 as u16).collect()),
        List::Halves(nodes.iter().map(|node| node.2 as u16).collect()),
        List::Bytes(nodes.iter().map(|node| node.3 as u8).collect()),
    ]
}

pub fn root(node: &Node) -> [u64; 4] {
    [node.0 as u64, node.1 as u64, node.2 as u64, node.3 as u64]
}

/// A node, listed or the root, that breaks the rule for node lists.
pub fn broken(judged: &mut Judged, f: &Formula, propositions: usize) -> Formula {
    let mut nodes = f.listed.clone();
    nodes.push(f.root);
    let at = judged.random.below(nodes.len() as u64) as usize;
    let node = &mut nodes[at];
    match judged.random.below(5) {
        // A child at its own node's place, or beyond the list.
        0 if node.0 < 16 => node.1 = at,
        1 => *node = Node(19, 0, 0, 1),
        2 => *node = Node(16, propositions, 0, 1),
        // A field that is not used.
        3 if node.0 < 5 || node.0 >= 16 => node.2 = 1,
        _ => node.3 += 1,
    }
    let root = nodes.pop().unwrap();
    Formula {
        listed: nodes,
        root,
        tree: f.tree.clone(),
    }
}

struct Given {
    r: usize,
    m: usize,
    marks: Vec<u8>,
    lengths: Vec<u8>,
    words: Vec<u64>,
}

fn call(judged: &mut Judged, given: &Given, f: &Formula) -> Call {
    let mut scalars = vec![given.r as u64, given.m as u64];
    scalars.extend(root(&f.root));
    let mut lists = vec![
        List::Bytes(given.marks.clone()),
        List::Bytes(given.lengths.clone()),
        List::Words(given.words.clone()),
    ];
    lists.extend(listed(&f.listed));
    lists.push(judged.out());
    Call {
        function: Function::Check,
        scalars,
        lists,
    }
}

fn sessions(judged: &mut Judged, r: usize, m: usize) -> Given {
    let random = &mut judged.random;
    let lengths: Vec<u8> = (0..r).map(|_| random.below(65) as u8).collect();
    let words = lengths.iter().flat_map(|n| vec![*n as u64; m]).collect::<Vec<_>>();
    Given {
        r,
        m,
        marks: vec![],
        lengths,
        words: words.into_iter().map(|n| random.word(n)).collect(),
    }
}

/// One thing that is wrong, and document 01's number for it. Numbers rise in the order of the checks.
fn spoil(judged: &mut Judged, call: &mut Call, given: &Given, which: u64) -> u64 {
    let at = judged.random.below(given.r as u64) as usize;
    let short = judged.random.below(4);
    match (which, &mut call.lists[..]) {
        (0, _) => {
            call.scalars[0] = [0, 33, u64::MAX][at % 3];
            1
        }
        (1, _) => {
            call.scalars[1] = [0, 17, u64::MAX][at % 3];
            1
        }
        (2, [List::Bytes(marks), List::Bytes(lengths), List::Words(words), .., List::WordsOut(out)]) => {
            match short {
                0 => marks.truncate(given.r - 1),
                1 => lengths.truncate(given.r - 1),
                2 => words.truncate(given.r * given.m - 1),
                _ => out.truncate(7),
            }
            3
        }
        (3, [_, List::Bytes(lengths), ..]) if at < lengths.len() => {
            lengths[at] = 65;
            4
        }
        (4, [_, List::Bytes(lengths), List::Words(words), ..])
            if lengths.get(at).is_some_and(|n| *n < 64) && at * given.m < words.len() =>
        {
            words[at * given.m] |= !ones(lengths[at] as u64);
            5
        }
        (5, [List::Bytes(marks), ..]) if at < marks.len() => {
            marks[at] = 2;
            6
        }
        _ => u64::MAX,
    }
}

pub fn compare(judged: &mut Judged, rounds: u64) {
    for _ in 0..rounds {
        for size in 1..=31 {
            let (r, m) = (
                1 + judged.random.below(32) as usize,
                1 + judged.random.below(16) as usize,
            );
            let f = formula(&mut judged.random, &names(m), size);
            let mut given = sessions(judged, r, m);
            let sequence =
                |j: usize, p: usize| oracle::sequence(Seq::new(given.lengths[j] as u64, given.words[j * m + p]));
            let trace = |j: usize| Trace {
                atomic_propositions: (0..m).map(|p| sequence(j, p)).collect(),
            };
            let traces: Vec<Trace> = (0..r).map(trace).collect();
            let accepted = f.tree.eval(&traces).accepted_vec();
            let of_session = |(j, b): (usize, bool)| {
                if given.lengths[j] == 0 {
                    empty::accepts(&f.tree)
                } else {
                    b
                }
            };
            given.marks = accepted
                .into_iter()
                .enumerate()
                .map(|pair| of_session(pair) as u8)
                .collect();

            let good = call(judged, &given, &f);
            let due = good.lists[7].with(&[1]);
            judged.hold(&good, 0, &[(7, due)]);

            let first = judged.random.below(r as u64) as usize;
            for j in first..r {
                given.marks[j] ^= (j == first || judged.random.below(4) == 0) as u8;
            }
            let wrong = call(judged, &given, &f);
            let due = wrong.lists[7].with(&[0, first as u64]);
            judged.hold(&wrong, 0, &[(7, due)]);

            // Two things at once: the smaller number is given.
            let faulty = broken(judged, &f, m);
            let mut bad = call(judged, &given, &faulty);
            judged.refuse(&bad, 9);
            let (one, other) = (judged.random.below(6), judged.random.below(6));
            let number = spoil(judged, &mut bad, &given, one).min(spoil(judged, &mut bad, &given, other));
            judged.refuse(&bad, number.min(9));
        }
    }
}
