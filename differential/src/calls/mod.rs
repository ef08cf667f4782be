//! The other functions of the C boundary: operators, check, print and read, against the Rust or, where it has no such thing, document 01's rows.
mod files;
mod judged;
mod operators;
mod separating;
mod texts;

use crate::boundary::{self, Way};
use judged::Judged;

/// Compares with so many rounds of each kind.
pub fn run(way: Way, rounds: u64) -> i32 {
    let Some(library) = boundary::opened(way, "calls") else {
        return 1;
    };
    let mut judged = Judged::new(library);
    let (mut compared, mut differ) = (0, 0);
    let parts: [(&str, fn(&mut Judged, u64)); 4] = [
        ("operators", operators::compare),
        ("check", separating::compare),
        ("print", texts::compare),
        ("read", files::compare),
    ];
    for (what, compare) in parts {
        compare(&mut judged, rounds);
        println!("{what}: compared {}, {} differ", judged.compared, judged.differ);
        if let Some(first) = judged.first.take() {
            println!("  the first: {first}");
        }
        compared += judged.compared;
        differ += judged.differ;
        judged.compared = 0;
        judged.differ = 0;
    }
    println!("calls of the boundary: compared {compared}, {differ} differ");
    (differ > 0) as i32
}
