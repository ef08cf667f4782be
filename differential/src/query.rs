//! A question to the operators, its answer, and the lines in which our program `run_replay` reads and writes them.
use std::fmt;

/// A length and a word, well formed or not.
#[derive(Clone, Copy, PartialEq, Eq, PartialOrd, Ord)]
pub struct Seq {
    pub length: u64,
    pub word: u64,
}

#[derive(Clone, Copy, PartialEq, Eq)]
pub enum Query {
    Unary(u8, Seq),
    Binary(u8, Seq, Seq),
}

#[derive(Clone, Copy, PartialEq, Eq)]
pub enum Answer {
    Sequence(Seq),
    /// Document 01's number.
    Refused(u8),
}

/// What `run_replay` answers a line that is no query.
pub const NO_QUERY: u8 = 0xff;

pub const QUERY_LINE: usize = 72;
pub const ANSWER_LINE: usize = 37;

/// Document 01's operator codes and tokens.
pub const UNARY: [(u8, &str); 5] = [(0, "!"), (1, "X"), (2, "X[!]"), (3, "F"), (4, "G")];
pub const BINARY: [(u8, &str); 6] = [(5, "|"), (6, "&"), (7, "U"), (8, "R"), (9, "->"), (10, "<->")];

/// The word with all bits below `length` set; the length is at most 64.
pub fn ones(length: u64) -> u64 {
    if length == 0 {
        0
    } else {
        u64::MAX >> (64 - length)
    }
}

/// The words of a formula at this length: one bit for each snapshot, and the first at length 0 too.
pub fn words(length: u64) -> std::ops::RangeInclusive<u64> {
    0..=ones(length.max(1))
}

impl Seq {
    pub fn new(length: u64, word: u64) -> Self {
        Seq { length, word }
    }

    /// Document 01: the length is at most 64 and no bit at or above it is set.
    pub fn is_well_formed(self) -> bool {
        self.length <= 64 && self.word & !ones(self.length) == 0
    }
}

impl Query {
    pub fn code(self) -> u8 {
        match self {
            Query::Unary(code, _) | Query::Binary(code, _, _) => code,
        }
    }

    /// What makes one query smaller than another: its lengths, then its words, then the code.
    pub fn size(self) -> (u64, u64, u64, u64, u8) {
        let (left, right) = match self {
            Query::Unary(_, seq) => (seq, Seq::new(0, 0)),
            Query::Binary(_, left, right) => (left, right),
        };
        let lengths = left.length.saturating_add(right.length);
        (lengths, left.length, left.word, right.word, self.code())
    }

    pub fn line(self) -> String {
        let (group, code, left, right) = match self {
            Query::Unary(code, seq) => ('u', code, seq, Seq::new(0, 0)),
            Query::Binary(code, left, right) => ('b', code, left, right),
        };
        format!(
            "{group}{code:02x} {:016x} {:016x} {:016x} {:016x}\n",
            left.length, left.word, right.length, right.word
        )
    }
}

impl Answer {
    pub fn line(self) -> String {
        match self {
            Answer::Sequence(seq) => format!("00 {:016x} {:016x}\n", seq.length, seq.word),
            Answer::Refused(number) => format!("{number:02x} {:016x} {:016x}\n", 0, 0),
        }
    }
}

impl fmt::Display for Seq {
    fn fmt(&self, f: &mut fmt::Formatter<'_>) -> fmt::Result {
        write!(f, "length {} word {}", self.length, self.word)
    }
}

impl fmt::Display for Query {
    fn fmt(&self, f: &mut fmt::Formatter<'_>) -> fmt::Result {
        match self {
            Query::Unary(code, seq) => write!(f, "unary {} of {seq}", name(*code)),
            Query::Binary(code, left, right) => write!(f, "{left} {} {right}", name(*code)),
        }
    }
}

impl fmt::Display for Answer {
    fn fmt(&self, f: &mut fmt::Formatter<'_>) -> fmt::Result {
        match self {
            Answer::Sequence(seq) => write!(f, "{seq}"),
            Answer::Refused(number) => write!(f, "refused {number}"),
        }
    }
}

/// The code with its token, if it has one.
pub fn name(code: u8) -> String {
    match UNARY.iter().chain(&BINARY).find(|row| row.0 == code) {
        Some((_, token)) => format!("`{token}`"),
        None => format!("code {code}"),
    }
}
