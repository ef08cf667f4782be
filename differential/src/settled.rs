//! What our program `settled` has to print: P1 to P10 of document 01, and every operator on all words of up to 4 snapshots, by the Rust; at length 0 by
//! document 02.
use crate::empty::due;
use crate::oracle::{binary, unary};
use crate::query::{self, Query, Seq, BINARY, UNARY};

fn one(name: &'static str, code: u8, length: u64, word: u64) -> (&'static str, Query) {
    (name, Query::Unary(code, Seq::new(length, word)))
}

fn two(name: &'static str, code: u8, length: u64, left: u64, right: u64) -> (&'static str, Query) {
    (
        name,
        Query::Binary(code, Seq::new(length, left), Seq::new(length, right)),
    )
}

/// In 01's order.
fn examples() -> [(&'static str, Query); 17] {
    [
        one("P1", 0, 4, 6),
        one("P2", 2, 4, 6),
        one("P2", 1, 4, 6),
        one("P3", 3, 4, 6),
        one("P3", 4, 4, 6),
        two("P4", 7, 4, 3, 4),
        two("P5", 8, 4, 4, 7),
        two("P5", 8, 4, 0, 7),
        two("P6", 9, 4, 6, 3),
        two("P6", 10, 4, 6, 3),
        one("P7", 1, 1, 0),
        one("P7", 2, 1, 1),
        one("P8", 0, 0, 0),
        one("P8", 1, 0, 0),
        one("P9", 0, 64, 0),
        one("P9", 1, 64, 0),
        two("P10", 7, 64, (1 << 63) - 1, 1 << 63),
    ]
}

/// The answers to a row of queries, as the program prints them.
fn words(queries: impl Iterator<Item = Query>) -> String {
    queries.map(|query| format!(" {}", due(query).word)).collect()
}

pub fn lines() -> String {
    let mut text = String::new();
    for (name, query) in examples() {
        let (length, asked) = match query {
            Query::Unary(code, seq) => (seq.length, format!("{} {}", unary(code), seq.word)),
            Query::Binary(code, left, right) => (left.length, format!("{} {} {}", left.word, binary(code), right.word)),
        };
        text += &format!("{name}, length {length}: {asked} = {}\n", due(query).word);
    }
    for length in 0..=4 {
        let all = || query::words(length).map(move |word| Seq::new(length, word));
        for (code, _) in UNARY {
            text += &format!(
                "length {length}: {} ={}\n",
                unary(code),
                words(all().map(|seq| Query::Unary(code, seq)))
            );
        }
        for (code, _) in BINARY {
            for left in all() {
                let row = words(all().map(|right| Query::Binary(code, left, right)));
                text += &format!("length {length}: {} {} ={row}\n", left.word, binary(code));
            }
        }
    }
    text
}
