//! An input on which the published hash of the Rust takes two different matrices for one, so that its search loses a formula. With exact keys, as the
//! comparison has them, the same search finds it.
use super::counted;
use super::input::{Ending, Input, Outcome};
use super::prose;

/// The published hash of a list of words: rotate, xor, multiply.
fn published(words: &[u64]) -> u64 {
    let step = |hash: u64, word: &u64| (hash.rotate_left(5) ^ word).wrapping_mul(0x517c_c1b7_2722_0a95);
    words.iter().fold(0, step)
}

/// Two sessions and two propositions p and q. p is false throughout; q is true at the start of the first session, which is as short as can be, and
/// in the second, of 64 snapshots, it makes up for that in the hash. Only `!` is offered, and only `!q` separates.
fn input() -> Option<Input> {
    (1..=64).find_map(|length| {
        // As the Rust hashes a matrix: the number of rows, then each row's word and length.
        let [p, q] = [0, 1].map(|word| published(&[2, word, length]));
        let second = p.rotate_left(5) ^ q.rotate_left(5);
        (second & 1 == 0).then(|| Input {
            r: 2,
            m: 2,
            bound: 2,
            room: 4,
            constants: 0,
            marks: vec![0, 1],
            lengths: vec![length as u8, 64],
            words: vec![0, 1, 0, second],
            unary: vec![0],
            binary: vec![],
        })
    })
}

fn say(who: &str, outcome: &Outcome) {
    let ending = match outcome.ending {
        Ending::Found(root) => format!("found {root:?}"),
        Ending::None => "none".to_string(),
        Ending::Full(size) => format!("full at size {size}"),
    };
    println!("{who}: {ending}, tried {}, kept {}", outcome.tried, outcome.kept());
}

pub fn run() -> i32 {
    let input = input().expect("no such input");
    println!("{input}");
    let hash = if cfg!(feature = "published-hash") {
        "its published hash"
    } else {
        "exact keys"
    };
    let rust = counted::outcome(&input, u64::MAX);
    match rust {
        Ok(outcome) => say(&format!("the Rust, with {hash}"), &outcome),
        Err(_) => println!("the Rust runs on and on"),
    }
    say("document 01's prose", &prose::outcome(&input, u64::MAX).unwrap());
    0
}
