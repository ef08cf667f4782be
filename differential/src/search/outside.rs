//! What the Rust's own search does where document 01 asks for something else: its seeds, a bound of 0, an operator listed twice, larger numbers.
use super::counted::{self, Start};
use super::input::{Ending, Input, Outcome};
use super::prose;
use crate::algos::aux::enum_aux;
use crate::cache::{EnumFormulaCache, EnumFormulaCacheLine};
use crate::formula::rebuild_formula;
use crate::ltl::cache::LtlCache;

/// One empty session marked 0 with one proposition, which is false there: the smallest input on which a leaf separates.
fn smallest(bound: usize, unary: Vec<u8>) -> Input {
    Input {
        r: 1,
        m: 1,
        bound,
        room: 1,
        constants: 0,
        marks: vec![0],
        lengths: vec![0],
        words: vec![0],
        unary,
        binary: vec![],
    }
}

/// The Rust's answer alone, with its seeds kept and not tried.
fn bare(input: &Input) -> String {
    let start = Start::new(input, u64::MAX);
    let mut cache = LtlCache::new();
    cache.new_line(0);
    let mut line = cache.new_line(1);
    for seed in start.seeds {
        line.push(seed);
    }
    match enum_aux(&mut cache, &start.operators, &start.target[..], start.bound) {
        Some(f) => rebuild_formula(&f, &cache).to_string(),
        None => "none".to_string(),
    }
}

pub fn findings() {
    println!("The search (01: leaves are tried like any other candidate; B = 0 is refused 2, a repeated operator 7):");
    println!(
        "  one empty session marked 0, B = 1, no operator: {}",
        bare(&smallest(1, vec![]))
    );
    println!("  the same, B = 2, `!`: {}", bare(&smallest(2, vec![0])));
    println!("  the same, B = 0: {}", bare(&smallest(0, vec![0])));
    let mut twice = smallest(2, vec![0]);
    twice.marks = vec![1];
    for unary in [vec![0], vec![0, 0]] {
        twice.unary = unary;
        let tried = counted::outcome(&twice, u64::MAX).unwrap().tried;
        println!(
            "  the session marked 1, B = 2, unary operators {:?}: tried {tried}",
            twice.unary
        );
    }
}

/// An empty session marked 1: the Rust accepts nothing there.
pub fn empty() {
    println!("The empty session (02, E4), one marked 1 with one proposition; the Rust with its leaves tried, and the documents' prose:");
    let ending = |outcome: Outcome| match outcome.ending {
        Ending::Found(root) => format!(
            "found code {}, tried {}, kept {}",
            root.code,
            outcome.tried,
            outcome.kept()
        ),
        Ending::None => format!("none, tried {}, kept {}", outcome.tried, outcome.kept()),
        Ending::Full(size) => format!("full at {size}"),
    };
    for (what, bound, constants, unary) in [("constants, B = 1", 1, 1, vec![]), ("`!`, B = 2", 2, 0, vec![0])] {
        let mut input = smallest(bound, unary);
        input.marks = vec![1];
        input.constants = constants;
        input.room = 4;
        let rust = ending(counted::outcome(&input, u64::MAX).unwrap());
        println!(
            "  {what}: {rust}; {}",
            ending(prose::outcome(&input, u64::MAX).unwrap())
        );
    }
}

/// Numbers above document 01's: the Rust has no limits of its own.
pub fn beyond() {
    println!("Numbers above document 01's (33 sessions and 17 propositions are refused 1, B = 32 is refused 2):");
    let mut many = smallest(2, vec![0]);
    many.r = 33;
    many.marks = vec![0; 33];
    many.lengths = vec![1; 33];
    many.words = vec![1; 33];
    println!(
        "  33 sessions of one snapshot at which p holds, all marked 0, B = 2, `!`: {}",
        bare(&many)
    );
    let mut wide = smallest(2, vec![0]);
    wide.m = 17;
    wide.lengths = vec![1];
    wide.words = vec![1; 17];
    println!("  one such session with 17 propositions that hold: {}", bare(&wide));
    let mut far = smallest(32, vec![2]);
    far.marks = vec![1];
    far.lengths = vec![32];
    far.words = vec![1 << 31];
    for bound in [31, 32] {
        far.bound = bound;
        let answer = bare(&far);
        println!(
            "  one session of 32 snapshots, p at the last alone, `X[!]`, B = {bound}: {}",
            match answer.matches("X[!]").count() {
                0 => answer,
                count => format!("`X[!]` {count} times on p"),
            }
        );
    }
}
