//! The stored answers of the Rust, and document 02's on the empty trace, so that the gate replays them with no Rust at hand: samples of queries and of
//! searches, and what `settled` prints.
use crate::empty;
use crate::program::root;
use crate::query::{ones, words, Answer, Query, Seq, BINARY, UNARY};
use crate::refusals;
use crate::search::stored;
use crate::settled;
use crate::words::Random;
use std::fs;

/// Every word at the lengths 0 to 2, and at each length above them edge words and random ones; for every code.
fn queries() -> Vec<Query> {
    let mut queries = vec![];
    let mut unary = vec![];
    let mut binary = vec![];
    for length in 0..=2 {
        for left in words(length) {
            unary.push((length, left));
            binary.extend(words(length).map(|right| (length, left, right)));
        }
    }
    let mut random = Random::new(2);
    for length in 3..=64 {
        let full = ones(length);
        let high = full ^ (full >> 1);
        unary.extend([full, high, full ^ high, random.word(length)].map(|word| (length, word)));
        // A run that reaches the bit at its end, from 0 and from a place between.
        let to = random.below(length);
        let from = random.below(to + 1);
        binary.extend([
            (length, full ^ high, high),
            (length, ones(from) ^ ones(to), 1 << to),
            (length, high, full ^ random.word(length)),
            (length, random.word(length), random.word(length)),
        ]);
    }
    for (length, word) in unary {
        queries.extend(UNARY.map(|(code, _)| Query::Unary(code, Seq::new(length, word))));
    }
    for (length, left, right) in binary {
        let pair = (Seq::new(length, left), Seq::new(length, right));
        queries.extend(BINARY.map(|(code, _)| Query::Binary(code, pair.0, pair.1)));
    }
    queries
}

/// The stored files, and how many lines of the sample are the Rust's and how many are document 01's refusals.
struct Sample {
    files: [(&'static str, String); 5],
    from_rust: usize,
    from_01: usize,
}

fn sample() -> Sample {
    let mut stdin = String::new();
    let mut stdout = String::new();
    let queries = queries();
    for query in &queries {
        stdin += &query.line();
        stdout += &Answer::Sequence(empty::due(*query)).line();
    }
    // The Rust refuses nothing, so these carry 01's own numbers and stand apart at the end.
    let refusals = refusals::order();
    for (query, number) in &refusals {
        stdin += &query.line();
        stdout += &Answer::Refused(*number).line();
    }
    Sample {
        files: [
            ("crates/run_replay/stdin", stdin),
            ("crates/run_replay/stdout", stdout),
            ("crates/run_settled/stdout", settled::lines()),
            ("crates/run_searches/stdin", searches("stdin", stored::questions())),
            ("crates/run_searches/stdout", searches("stdout", stored::lines())),
        ],
        from_rust: queries.len(),
        from_01: refusals.len(),
    }
}

/// What `run_searches` reads or prints: its own lines, which come from document 01's prose and stay, and then the sample's.
fn searches(file: &str, sampled: String) -> String {
    let stands = fs::read_to_string(root().join("crates/run_searches").join(file)).unwrap_or_default();
    let own = stands.lines().filter(|line| !line.starts_with("sample "));
    own.map(|line| line.to_string() + "\n").collect::<String>() + &sampled
}

/// Whether the stored files are what would be written now.
pub fn is_current() -> Result<(), String> {
    for (name, text) in sample().files {
        match fs::read(root().join(name)) {
            Ok(bytes) if bytes == text.as_bytes() => {}
            Ok(_) => return Err(format!("{name} is not what the Rust answers")),
            Err(error) => return Err(format!("{name}: {error}")),
        }
    }
    Ok(())
}

pub fn run() -> i32 {
    let sample = sample();
    for (name, text) in &sample.files {
        if let Err(error) = fs::write(root().join(name), text) {
            println!("{name} can't be written: {error}");
            return 1;
        }
    }
    println!(
        "crates/run_replay/stdin and stdout: the first {} lines are the Rust's answers (at length 0 document 02's), the last {} document 01's refusals",
        sample.from_rust, sample.from_01
    );
    println!("crates/run_searches: the lines that start with `sample` are the Rust's answers");
    0
}
