//! The comparison of whole searches: ending, root, counts, kept nodes, matrices, and the untouched rest of all that is lent.
use super::counted;
use super::drawn;
use super::every;
use super::input::{Ending, Input, Outcome};
use super::lent::{search, Lens, Lent};
use super::prose;
use super::refused;
use super::settled;
use super::tally::Tally;
use crate::boundary::{self, Boundary, Way};
use crate::words::Random;

/// How much is compared.
pub struct Extent {
    /// Random searches.
    random: u64,
    /// One of so many of the small inputs.
    stride: usize,
}

impl Extent {
    pub fn full(random: u64) -> Self {
        Extent { random, stride: 1 }
    }

    /// With fewer of the small inputs, for the slower way to our library.
    pub fn thin(random: u64) -> Self {
        Extent { random, stride: 11 }
    }

    pub fn short() -> Self {
        Extent {
            random: 400,
            stride: 997,
        }
    }
}

/// Work of the plain walk above which it isn't asked: it goes position by position.
const PROSE: u64 = 30_000;

/// The most leaves: size 1 is always gone through.
const LEAVES: u64 = 18;

/// What the plain walk costs a candidate.
fn snapshots(input: &Input) -> u64 {
    input.lengths.iter().map(|n| (1 + *n as u64).pow(2)).sum()
}

/// How the search has to end, or the size at which more than `limit` candidates were tried: by the Rust, or, where a session is empty, by the walk
/// written from the documents' prose, which is let try as many as it does in the time of one that is asked beside the Rust.
pub fn due(input: &Input, limit: u64) -> Result<Outcome, usize> {
    if input.has_empty() {
        prose::outcome(input, limit.min(LEAVES + PROSE / snapshots(input)))
    } else {
        counted::outcome(input, limit)
    }
}

struct Comparison {
    library: Box<dyn Boundary>,
    tally: Tally,
    random: Random,
    /// Altered answers that the comparison saw to be wrong, and those that it didn't.
    seen: u64,
    unseen: u64,
}

/// What differs between an answer that has to be and what the library answered and wrote.
pub fn judge(answer: u64, due: u64, input: &Input, given: &Input, lent: &Lent, expected: &Lent) -> Option<String> {
    if answer != due {
        return Some(format!("answers {answer} and has to answer {due}"));
    }
    let inputs = [
        (input.marks == given.marks, "marks"),
        (input.lengths == given.lengths, "lengths"),
        (input.words == given.words, "words"),
        (input.unary == given.unary, "unary"),
        (input.binary == given.binary, "binary"),
    ];
    if let Some((_, what)) = inputs.iter().find(|same| !same.0) {
        return Some(format!("{what} were written"));
    }
    lent.difference(expected)
}

/// An outcome that is wrong in one place.
fn altered(random: &mut Random, outcome: &Outcome) -> Outcome {
    let mut wrong = outcome.clone();
    let nodes = wrong.nodes.len() as u64;
    match random.below(9) {
        0 if nodes > 0 => wrong.nodes[random.below(nodes) as usize].code ^= 1,
        1 if nodes > 0 => wrong.nodes[random.below(nodes) as usize].left ^= 1,
        2 if nodes > 0 => wrong.nodes[random.below(nodes) as usize].right ^= 1,
        3 if nodes > 0 => wrong.nodes[random.below(nodes) as usize].size ^= 1,
        4 if nodes > 0 => {
            let at = random.below(wrong.matrices.len() as u64) as usize;
            wrong.matrices[at] ^= 1 << random.below(64);
        }
        5 if nodes > 0 => {
            // One place fewer: the last one counts as untouched.
            wrong.nodes.pop();
            wrong
                .matrices
                .truncate(wrong.matrices.len() * wrong.nodes.len() / nodes as usize);
        }
        6 => wrong.tried += 1,
        7 => wrong.dropped += 1,
        _ => match &mut wrong.ending {
            Ending::Found(root) => root.left ^= 1,
            Ending::None => wrong.ending = Ending::Full(1),
            Ending::Full(size) => *size += 1,
        },
    }
    wrong
}

/// An outcome in the program's words.
fn said(outcome: &Outcome) -> String {
    let ending = match outcome.ending {
        Ending::Found(root) => format!("found size {}", root.size),
        Ending::None => "none".to_string(),
        Ending::Full(size) => format!("full size {size}"),
    };
    format!(
        "{ending} tried {} kept {} dropped {}",
        outcome.tried,
        outcome.kept(),
        outcome.dropped
    )
}

impl Comparison {
    /// Says what was compared since the last section.
    fn section(&mut self, what: &str) -> Tally {
        let tally = std::mem::replace(&mut self.tally, Tally::new());
        println!("{what}: {}", tally.compared);
        tally.print();
        tally
    }

    /// A good input, whose ending the Rust has to know; it tries no more than `limit` candidates. Where a session is empty, document 02 is the judge.
    fn good(&mut self, mut input: Input, limit: u64) {
        let outcome = match due(&input, limit) {
            Ok(outcome) => outcome,
            Err(size) => {
                self.tally.lowered += 1;
                input.bound = size - 1;
                due(&input, limit).expect("a smaller bound ends sooner")
            }
        };
        self.tally.ended(&input, &outcome);
        let mut wrong = None;
        if input.has_empty() {
            self.tally.prose += 1;
        } else if outcome.tried * snapshots(&input) <= PROSE {
            self.tally.prose += 1;
            if prose::outcome(&input, u64::MAX).as_ref() != Ok(&outcome) {
                wrong = Some("the Rust and document 01's prose disagree".to_string());
            }
        }
        let mut given = input.clone();
        let mut lens = Lens::asked(&input);
        refused::lengthen(&mut self.random, &mut given, &mut lens);
        let before = Lent::new(lens, self.random.next());
        let mut lent = before.clone();
        let passed = given.clone();
        let answer = search(&mut *self.library, &passed, &mut lent);
        let mut expected = before.clone();
        expected.write(&outcome);
        let wrong = wrong.or_else(|| judge(answer, 0, &passed, &given, &lent, &expected));
        // Now and then the answer is held to a wrong one as well, which has to show.
        if wrong.is_none() && self.random.below(64) == 0 {
            let mut other = before;
            other.write(&altered(&mut self.random, &outcome));
            match judge(answer, 0, &passed, &given, &lent, &other) {
                Some(_) => self.seen += 1,
                None => self.unseen += 1,
            }
        }
        self.tally.compared(&input, wrong);
    }

    /// S1 to S5 by name: document 01's own numbers, the Rust's search and ours.
    fn settled(&mut self) {
        for example in settled::taken() {
            let before = self.tally.differ;
            let outcome = due(&example.input, u64::MAX).expect("a settled example ends");
            self.good(example.input.clone(), u64::MAX);
            if !example.allows(&outcome) {
                let wrong = "the answer is not the one that the documents settle".to_string();
                self.tally.compared(&example.input, Some(wrong));
            }
            self.say(example.name, &said(&outcome), before);
        }
        for (name, input, number) in settled::refused() {
            let before = self.tally.differ;
            let lens = Lens::asked(&input);
            assert_eq!(refused::number(&input, &lens), number);
            self.refusal(input, lens, number);
            self.say(name, &format!("refused {number}"), before);
        }
    }

    /// A line for a named example.
    fn say(&self, name: &str, said: &str, before: u64) {
        let verdict = if self.tally.differ == before { "" } else { ": DIFFERS" };
        println!("{name}: {said}{verdict}");
    }

    /// An input with something broken.
    fn broken(&mut self, number: u64) {
        let (given, lens) = refused::draw(number);
        let due = refused::number(&given, &lens);
        if due > 0 {
            self.refusal(given, lens, due);
        }
    }

    /// An input that is refused: document 01's number, and nothing written.
    fn refusal(&mut self, given: Input, lens: Lens, due: u64) {
        self.tally.refused(due);
        let before = Lent::new(lens, self.random.next());
        let mut lent = before.clone();
        let passed = given.clone();
        let answer = search(&mut *self.library, &passed, &mut lent);
        let wrong = judge(answer, due, &passed, &given, &lent, &before);
        self.tally.compared(&given, wrong);
    }
}

pub fn run(way: Way, extent: Extent) -> i32 {
    let Some(library) = boundary::opened(way, "searches") else {
        return 1;
    };
    let mut comparison = Comparison {
        library,
        tally: Tally::new(),
        random: Random::new(2),
        seen: 0,
        unseen: 0,
    };
    comparison.settled();
    let settled = comparison.section("S1 to S5");
    every::each(extent.stride, |input| comparison.good(input, u64::MAX));
    let small = comparison.section("small inputs in turn");
    for number in 0..extent.random {
        let (input, limit) = drawn::draw(number);
        if !input.has_empty() {
            comparison.good(input, limit);
        } else if let Some(input) = input.without_empty() {
            comparison.good(input, limit);
        }
    }
    let random = comparison.section("random inputs without empty sessions, by the Rust");
    for number in 0..extent.random {
        let (input, limit) = drawn::draw(number);
        if input.has_empty() {
            comparison.good(input, limit);
        }
    }
    let with_empty = comparison.section("random inputs with empty sessions, by the documents' prose");
    for number in 0..extent.random / 4 {
        comparison.broken(number);
    }
    let broken = comparison.section("broken inputs");
    println!(
        "altered answers: {} seen to be wrong, {} not seen",
        comparison.seen, comparison.unseen
    );
    let differ = settled.differ + small.differ + random.differ + with_empty.differ + broken.differ;
    println!(
        "compared {} searches ({} settled, {} small ones in turn, {} random, {} random with empty sessions, {} refused), {differ} differ",
        settled.compared + small.compared + random.compared + with_empty.compared + broken.compared,
        settled.compared,
        small.compared,
        random.compared,
        with_empty.compared,
        broken.compared,
    );
    (differ > 0 || comparison.unseen > 0) as i32
}
