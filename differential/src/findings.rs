//! What the Rust does outside document 01's domain, each with its smallest input, found by trying all small ones.
use crate::empty::due;
use crate::ltl::{cm::CharMatrix, trace::Trace};
use crate::ops::unary::LtlUnaryOp;
use crate::oracle::{answer, matrix, sequence, unary};
use crate::query::{name, ones, words, Query, Seq, BINARY, UNARY};
use std::panic::catch_unwind;

/// The longest sequence that is tried.
const LONGEST: u64 = 4;

/// What the Rust answers, or its panic's words.
fn try_answer(query: Query) -> Result<Seq, String> {
    tried(move || answer(query))
}

fn tried<T>(work: impl FnOnce() -> T + std::panic::UnwindSafe) -> Result<T, String> {
    catch_unwind(work).map_err(|words| match words.downcast::<String>() {
        Ok(words) => words.split_whitespace().collect::<Vec<_>>().join(" "),
        Err(words) => words
            .downcast::<&str>()
            .map_or("panic".to_string(), |words| words.to_string()),
    })
}

/// All pairs of well-formed sequences of unequal length, the smallest first.
fn unequal_pairs() -> Vec<(Seq, Seq)> {
    let mut pairs = vec![];
    for left in 0..=LONGEST {
        for right in (0..=LONGEST).filter(|right| *right != left) {
            for a in 0..=ones(left) {
                for b in 0..=ones(right) {
                    pairs.push((Seq::new(left, a), Seq::new(right, b)));
                }
            }
        }
    }
    pairs.sort_by_key(|(left, right)| Query::Binary(0, *left, *right).size());
    pairs
}

/// All ill-formed sequences with words below 32, each beside the same cut to its length.
fn ill_formed() -> Vec<(Seq, Seq)> {
    (0..=LONGEST)
        .flat_map(|length| (0..32).map(move |word| Seq::new(length, word)))
        .filter(|seq| !seq.is_well_formed())
        .map(|seq| (seq, Seq::new(seq.length, seq.word & ones(seq.length))))
        .collect()
}

fn show(what: &str, found: Option<String>) {
    println!("  {what}: {}", found.unwrap_or("none among those tried".to_string()));
}

fn unequal_lengths() {
    println!("Unequal lengths (01: refused 10), all well-formed pairs of lengths up to {LONGEST}:");
    let pairs = unequal_pairs();
    for (code, _) in BINARY {
        let tries: Vec<(Query, Result<Seq, String>)> = pairs
            .iter()
            .map(|(left, right)| Query::Binary(code, *left, *right))
            .map(|query| (query, try_answer(query)))
            .collect();
        let panics = tries.iter().filter(|row| row.1.is_err()).count();
        println!(" {}: {} pairs, {} panic", name(code), tries.len(), panics);
        let find = |wanted: &dyn Fn(&Query, &Result<Seq, String>) -> bool| {
            tries
                .iter()
                .find(|(query, result)| wanted(query, result))
                .map(|(query, result)| match result {
                    Ok(seq) => format!("{query} = {seq}"),
                    Err(words) => format!("{query} panics: {words}"),
                })
        };
        if panics > 0 {
            show("smallest panic", find(&|_, result| result.is_err()));
        }
        if panics < tries.len() {
            show("smallest answered", find(&|_, result| result.is_ok()));
            show(
                "smallest answer that is ill-formed",
                find(&|_, result| result.as_ref().is_ok_and(|seq| !seq.is_well_formed())),
            );
            show(
                "smallest where the right length alone changes the answer",
                find(&|query, result| result.is_ok() && right_length_matters(*query)),
            );
        }
    }
}

/// Whether the same right word at the left's length, where it is well formed too, gets another answer.
fn right_length_matters(query: Query) -> bool {
    let Query::Binary(code, left, right) = query else {
        return false;
    };
    let as_long = Seq::new(left.length, right.word);
    as_long.is_well_formed() && answer(query) != answer(Query::Binary(code, left, as_long))
}

fn long_sequences() {
    println!("Length above 64 (01: refused 4):");
    for length in [64, 65] {
        match tried(move || sequence(Seq::new(length, 0)).len()) {
            Ok(length) => println!("  {length} snapshots: a sequence of length {length}"),
            Err(words) => println!("  {length} snapshots: panics: {words}"),
        }
    }
}

/// A query with an ill-formed sequence in it, and the same with that word cut to its length.
struct Cut {
    query: Query,
    cut: Query,
}

fn ill_formed_words() {
    println!("A bit at or above the length (01: refused 5); the Rust's own crate can set one, and `U` above makes such words.");
    println!("All words below 32 at lengths up to {LONGEST}; a binary operator's other side is any well-formed word as long:");
    for (code, _) in UNARY {
        let one = |(wrong, cut)| Cut {
            query: Query::Unary(code, wrong),
            cut: Query::Unary(code, cut),
        };
        ill_formed_queries(code, "", ill_formed().into_iter().map(one).collect());
    }
    for (code, _) in BINARY {
        let mut left = vec![];
        let mut right = vec![];
        for (wrong, cut) in ill_formed() {
            for word in 0..=ones(wrong.length) {
                let good = Seq::new(wrong.length, word);
                left.push(Cut {
                    query: Query::Binary(code, wrong, good),
                    cut: Query::Binary(code, cut, good),
                });
                right.push(Cut {
                    query: Query::Binary(code, good, wrong),
                    cut: Query::Binary(code, good, cut),
                });
            }
        }
        ill_formed_queries(code, " with such a left", left);
        ill_formed_queries(code, " with such a right", right);
    }
}

fn ill_formed_queries(code: u8, side: &str, mut tries: Vec<Cut>) {
    tries.sort_by_key(|one| one.query.size());
    println!(" {}{side}: {} tried", name(code), tries.len());
    let shown = |one: &Cut| format!("{} = {}", one.query, answer(one.query));
    let stays = tries.iter().find(|one| !answer(one.query).is_well_formed());
    show("smallest answer that is ill-formed", stays.map(shown));
    // The bits above the length can also change the bits below it.
    let leaks = tries.iter().find(|one| {
        let cut = answer(one.cut);
        (answer(one.query).word ^ cut.word) & ones(cut.length) != 0
    });
    show("smallest where the bits above change the bits below", leaks.map(shown));
}

/// Each operator's smallest words of length 0 on which the Rust and document 02 part. A word of 1 is ill formed in the Rust.
fn empty_trace() {
    println!("The empty trace (02, E4: bit 0 of a word is its acceptance):");
    let seqs = || words(0).map(|word| Seq::new(0, word));
    let mut tries: Vec<Vec<Query>> = vec![];
    tries.extend(UNARY.map(|(code, _)| seqs().map(|seq| Query::Unary(code, seq)).collect()));
    for (code, _) in BINARY {
        let pairs = seqs().flat_map(|left| seqs().map(move |right| (left, right)));
        tries.push(pairs.map(|(left, right)| Query::Binary(code, left, right)).collect());
    }
    for tries in tries {
        let differs = tries.iter().find(|query| answer(**query) != due(**query));
        let shown = |query: &Query| {
            format!(
                "{query}: the Rust has {}, 02 has {}",
                answer(*query).word,
                due(*query).word
            )
        };
        show(&name(tries[0].code()), differs.map(shown));
    }
}

fn acceptance() {
    println!("Acceptance (bit 0 is set, 02; before it 01: and the length is above 0):");
    for seq in [Seq::new(0, 0), Seq::new(0, 1), Seq::new(1, 0), Seq::new(1, 1)] {
        println!("  {seq}: accepts is {}", sequence(seq).accepts());
    }
    let empty = Trace {
        atomic_propositions: Box::new([sequence(Seq::new(0, 0))]),
    };
    println!(
        "  true on an empty trace: accepted is {:?}",
        CharMatrix::true_like(std::slice::from_ref(&empty)).accepted_vec()
    );
}

fn matrices() {
    println!("Matrices (ours have one word a session; no slice is cut short):");
    let one = matrix(Seq::new(1, 1));
    let two: CharMatrix = [sequence(Seq::new(1, 1)); 2].into_iter().collect();
    let none: CharMatrix = std::iter::empty().collect();
    println!(
        "  `|` of 1 row and 2 rows, and of 2 and 1: {} and {} rows",
        one.or(&two).seqs.len(),
        two.or(&one).seqs.len()
    );
    println!(
        "  no rows against the marks [false], and [true]: {} and {}",
        none.is_equivalent(&[false]),
        none.is_equivalent(&[true])
    );
    println!(
        "  2 accepting rows against the marks [true]: {}",
        two.is_equivalent(&[true])
    );
    let bare = Trace {
        atomic_propositions: Box::new([]),
    };
    let truth = CharMatrix::true_like(std::slice::from_ref(&bare));
    println!(
        "  true and false on a trace with no proposition: {} and {} rows; true against [false]: {}",
        truth.seqs.len(),
        CharMatrix::false_like(std::slice::from_ref(&bare)).seqs.len(),
        truth.is_equivalent(&[false])
    );
    println!(
        "  unary `!` of no rows: {} rows",
        LtlUnaryOp::apply_cm(unary(0), &none).seqs.len()
    );
}

pub fn run() -> i32 {
    // The panics are what is looked for; their words are in the findings.
    std::panic::set_hook(Box::new(|_| {}));
    unequal_lengths();
    long_sequences();
    ill_formed_words();
    empty_trace();
    acceptance();
    matrices();
    crate::search::findings();
    crate::search::empty();
    crate::search::beyond();
    0
}
