//! The comparison: the Rust's answers, document 02's on the empty trace, and 01's refusals, against what our compiled program answers.
use crate::empty;
use crate::oracle;
use crate::program;
use crate::query::{name, words, Answer, Query, Seq, ANSWER_LINE, BINARY, NO_QUERY, QUERY_LINE, UNARY};
use crate::refusals;
use crate::sample;
use crate::words::{core, edges, reaching_pairs, Random};

/// How much is asked.
pub struct Extent {
    /// Random words, and random pairs of words, at each length from 5 on, for each code.
    random: u64,
    /// Whether all edge words are paired, or the core alone.
    all_edges: bool,
}

impl Extent {
    pub fn full(random: u64) -> Self {
        Extent {
            random,
            all_edges: true,
        }
    }

    pub fn short() -> Self {
        Extent {
            random: 10,
            all_edges: false,
        }
    }
}

/// What was compared so far.
struct Tally {
    compared: u64,
    differ: u64,
    /// The smallest query on which the two differ, with what was expected and what our program wrote.
    smallest: Option<(Query, Answer, String)>,
}

/// The queries of one length, and the line of the report on which each is counted.
struct Batch {
    queries: Vec<(Query, Answer, usize)>,
}

/// The lines of the report: what is counted, and how many were.
struct Report {
    lines: Vec<(String, u64)>,
}

impl Report {
    fn line(&mut self, what: String) -> usize {
        match self.lines.iter().position(|line| line.0 == what) {
            Some(at) => at,
            None => {
                self.lines.push((what, 0));
                self.lines.len() - 1
            }
        }
    }
}

impl Batch {
    /// Asks the Rust, or document 02's table on the empty trace, and notes the answer as what our program must say.
    fn ask(&mut self, report: &mut Report, what: &str, query: Query) {
        let line = report.line(format!("{what}, {}", name(query.code())));
        let answer = Answer::Sequence(empty::due(query));
        self.queries.push((query, answer, line));
    }

    fn unary(&mut self, report: &mut Report, what: &str, length: u64, word: u64) {
        for (code, _) in UNARY {
            self.ask(report, what, Query::Unary(code, Seq::new(length, word)));
        }
    }

    fn binary(&mut self, report: &mut Report, what: &str, length: u64, left: u64, right: u64) {
        for (code, _) in BINARY {
            let query = Query::Binary(code, Seq::new(length, left), Seq::new(length, right));
            self.ask(report, what, query);
        }
    }

    /// Runs our program on the queries and counts what differs.
    fn run(&self, report: &mut Report, tally: &mut Tally) -> Result<(), String> {
        let mut input = Vec::with_capacity(self.queries.len() * QUERY_LINE);
        for (query, _, _) in &self.queries {
            input.extend_from_slice(query.line().as_bytes());
        }
        assert_eq!(input.len(), self.queries.len() * QUERY_LINE);
        let output = program::output("run_replay", input)?;
        if output.len() != self.queries.len() * ANSWER_LINE {
            return Err(format!("{} bytes for {} queries", output.len(), self.queries.len()));
        }
        for ((query, answer, line), wrote) in self.queries.iter().zip(output.chunks(ANSWER_LINE)) {
            report.lines[*line].1 += 1;
            tally.compared += 1;
            if wrote == answer.line().as_bytes() {
                continue;
            }
            tally.differ += 1;
            if tally
                .smallest
                .as_ref()
                .map_or(true, |found| query.size() < found.0.size())
            {
                let wrote = String::from_utf8_lossy(wrote).trim_end().to_string();
                tally.smallest = Some((*query, *answer, wrote));
            }
        }
        Ok(())
    }
}

/// Every word, and every pair of words, at a short length.
fn exhaustive(report: &mut Report, length: u64) -> Batch {
    let mut batch = Batch { queries: vec![] };
    let what = match length {
        0 => "length 0, every word, by document 02",
        _ => "lengths 1 to 4, every word",
    };
    for word in words(length) {
        batch.unary(report, what, length, word);
    }
    for left in words(length) {
        for right in words(length) {
            batch.binary(report, what, length, left, right);
        }
    }
    batch
}

/// Edge words and random words at a longer length.
fn chosen(report: &mut Report, length: u64, extent: &Extent, random: &mut Random) -> Batch {
    let mut batch = Batch { queries: vec![] };
    let what = "lengths 5 to 64, edge words";
    let (core, edges) = (core(length), edges(length));
    for word in &edges {
        batch.unary(report, what, length, *word);
    }
    for a in &core {
        for b in if extent.all_edges { &edges } else { &core } {
            batch.binary(report, what, length, *a, *b);
            if !core.contains(b) {
                batch.binary(report, what, length, *b, *a);
            }
        }
    }
    if extent.all_edges {
        for (a, b) in reaching_pairs(length) {
            batch.binary(report, what, length, a, b);
        }
    }
    let what = "lengths 5 to 64, random words";
    for _ in 0..extent.random {
        let word = random.word(length);
        batch.unary(report, what, length, word);
    }
    for _ in 0..extent.random {
        let (left, right) = (random.word(length), random.word(length));
        batch.binary(report, what, length, left, right);
    }
    batch
}

/// Lines of the right width that are no query, and a last line that is cut off: our program must say so and go on.
fn broken(tally: &mut Tally) -> Result<u64, String> {
    let good = Query::Unary(0, Seq::new(4, 6)).line();
    let good_answer = Answer::Sequence(Seq::new(4, 9)).line();
    let no_query = Answer::Refused(NO_QUERY).line();
    let mut input = vec![];
    let mut expected = String::new();
    for line in refusals::broken_lines() {
        input.extend(line);
        expected += &no_query;
        input.extend_from_slice(good.as_bytes());
        expected += &good_answer;
    }
    input.extend_from_slice(&good.as_bytes()[..QUERY_LINE - 1]);
    expected += &no_query;
    let output = program::output("run_replay", input)?;
    let expected = expected.into_bytes();
    if output.len() != expected.len() {
        return Err(format!("{} bytes where {} are due", output.len(), expected.len()));
    }
    let pairs = output.chunks(ANSWER_LINE).zip(expected.chunks(ANSWER_LINE));
    let mut count = 0;
    for (wrote, due) in pairs {
        count += 1;
        tally.compared += 1;
        if wrote != due {
            tally.differ += 1;
        }
    }
    Ok(count)
}

pub fn run(extent: Extent) -> i32 {
    match compared(&extent) {
        Ok(true) => 0,
        Ok(false) => 1,
        Err(error) => {
            println!("the comparison could not be made: {error}");
            1
        }
    }
}

/// Compares all; answers whether nothing differs.
fn compared(extent: &Extent) -> Result<bool, String> {
    let operators = oracle::table()?;
    println!("the Rust's {operators} operators have 01's order, tokens and commuting marks");

    let mut report = Report { lines: vec![] };
    let mut tally = Tally {
        compared: 0,
        differ: 0,
        smallest: None,
    };
    let mut random = Random::new(1);
    let mut from_02 = 0;
    for length in 0..=64 {
        let batch = if length <= 4 {
            exhaustive(&mut report, length)
        } else {
            chosen(&mut report, length, extent, &mut random)
        };
        batch.run(&mut report, &mut tally)?;
        if length == 0 {
            from_02 = tally.compared;
        }
    }
    let from_rust = tally.compared - from_02;
    for rows in refusals::all() {
        let line = report.line(rows.what.to_string());
        let refused = |row: &(Query, u8)| (row.0, Answer::Refused(row.1), line);
        let batch = Batch {
            queries: rows.rows.iter().map(refused).collect(),
        };
        batch.run(&mut report, &mut tally)?;
    }
    for (what, count) in &report.lines {
        println!("{what}: {count}");
    }
    let from_01 = tally.compared - from_rust - from_02;
    let own = broken(&mut tally)?;
    println!("lines that are no query, and good ones between them: {own}");
    let stored = sample::is_current();
    match &stored {
        Ok(()) => println!("the stored sample is what the Rust answers"),
        Err(error) => println!("the stored sample is wrong: {error}"),
    }

    println!(
        "answers of the Rust: {from_rust}; of document 02 on the empty trace: {from_02}; refusals of document 01: {from_01}; run_replay's own rule for lines: {own}"
    );
    if let Some((query, answer, wrote)) = &tally.smallest {
        println!("smallest that differs: {query} = {answer}; our program wrote {wrote}");
    }
    println!("compared {} answers, {} differ", tally.compared, tally.differ);
    Ok(tally.differ == 0 && stored.is_ok())
}
