//! `scarfpylon_unary` and `scarfpylon_binary` against the Rust's operators, document 02's table at length 0, and the rows of refusals.
use super::judged::{Call, Judged, List};
use crate::boundary::Function;
use crate::empty;
use crate::query::{words, Query, Seq, BINARY, UNARY};
use crate::refusals;

fn call(query: Query, out: List) -> Call {
    let (function, scalars) = match query {
        Query::Unary(code, seq) => (Function::Unary, vec![code as u64, seq.length, seq.word]),
        Query::Binary(code, left, right) => (
            Function::Binary,
            vec![code as u64, left.length, left.word, right.length, right.word],
        ),
    };
    Call {
        function,
        scalars,
        lists: vec![out],
    }
}

fn ask(judged: &mut Judged, query: Query) {
    let out = judged.out();
    let due = out.with(&[empty::due(query).word]);
    judged.hold(&call(query, out), 0, &[(0, due)]);
}

fn each(judged: &mut Judged, length: u64, left: u64, right: u64) {
    for (code, _) in UNARY {
        ask(judged, Query::Unary(code, Seq::new(length, left)));
    }
    for (code, _) in BINARY {
        ask(
            judged,
            Query::Binary(code, Seq::new(length, left), Seq::new(length, right)),
        );
    }
}

pub fn compare(judged: &mut Judged, rounds: u64) {
    for length in 0..=4 {
        for left in words(length) {
            for right in words(length) {
                each(judged, length, left, right);
            }
        }
    }
    for length in 5..=64 {
        for _ in 0..rounds {
            let (left, right) = (judged.random.word(length), judged.random.word(length));
            each(judged, length, left, right);
        }
    }
    for (query, number) in refusals::all().into_iter().flat_map(|rows| rows.rows) {
        let out = judged.out();
        judged.refuse(&call(query, out), number as u64);
        // Too little room for the answer comes last.
        let count = judged.random.below(8) as usize;
        let out = judged.words_out(count);
        judged.refuse(&call(query, out), number as u64);
    }
    for count in 0..8 {
        for query in [
            Query::Unary(0, Seq::new(4, 6)),
            Query::Binary(5, Seq::new(4, 6), Seq::new(4, 3)),
        ] {
            let out = judged.words_out(count);
            judged.refuse(&call(query, out), 3);
        }
    }
}
