//! Refusals as document 01 has them. The Rust has none to compare with, so each row carries 01's number.
use crate::query::{ones, Query, Seq, BINARY, UNARY};

pub struct Rows {
    pub what: &'static str,
    pub rows: Vec<(Query, u8)>,
}

/// A well-formed sequence that no rule below finds fault with.
const GOOD: Seq = Seq { length: 4, word: 6 };
const LONG: Seq = Seq { length: 65, word: 0 };
const HIGH: Seq = Seq { length: 4, word: 16 };
const SHORT: Seq = Seq { length: 3, word: 6 };
const SHORT_HIGH: Seq = Seq { length: 3, word: 8 };

/// The order of checks: 7, then 4, 5 of the left, 4, 5 of the right, then 10. Each row breaks several rules at once.
pub fn order() -> Vec<(Query, u8)> {
    vec![
        (Query::Unary(5, GOOD), 7),
        (Query::Unary(5, LONG), 7),
        (Query::Unary(5, HIGH), 7),
        (Query::Unary(16, LONG), 7),
        (Query::Unary(255, HIGH), 7),
        (
            Query::Unary(
                0,
                Seq {
                    length: 65,
                    word: u64::MAX,
                },
            ),
            4,
        ),
        (Query::Unary(0, LONG), 4),
        (Query::Unary(0, HIGH), 5),
        (Query::Unary(4, LONG), 4),
        (Query::Unary(4, HIGH), 5),
        (Query::Binary(4, GOOD, GOOD), 7),
        (Query::Binary(11, GOOD, GOOD), 7),
        (Query::Binary(16, GOOD, GOOD), 7),
        (Query::Binary(4, LONG, GOOD), 7),
        (Query::Binary(4, HIGH, GOOD), 7),
        (Query::Binary(11, GOOD, LONG), 7),
        (Query::Binary(11, GOOD, HIGH), 7),
        (Query::Binary(16, GOOD, SHORT), 7),
        (Query::Binary(0, LONG, SHORT_HIGH), 7),
        (Query::Binary(5, LONG, GOOD), 4),
        (Query::Binary(5, LONG, LONG), 4),
        (Query::Binary(5, LONG, HIGH), 4),
        (Query::Binary(10, LONG, SHORT_HIGH), 4),
        (Query::Binary(5, HIGH, GOOD), 5),
        (Query::Binary(5, HIGH, LONG), 5),
        (Query::Binary(5, HIGH, HIGH), 5),
        (Query::Binary(5, HIGH, SHORT), 5),
        (Query::Binary(7, HIGH, SHORT_HIGH), 5),
        (Query::Binary(5, GOOD, LONG), 4),
        (Query::Binary(5, SHORT, LONG), 4),
        (
            Query::Binary(
                8,
                GOOD,
                Seq {
                    length: 65,
                    word: u64::MAX,
                },
            ),
            4,
        ),
        (Query::Binary(5, GOOD, HIGH), 5),
        (Query::Binary(5, GOOD, SHORT_HIGH), 5),
        (Query::Binary(10, SHORT, HIGH), 5),
        (Query::Binary(5, GOOD, SHORT), 10),
        (Query::Binary(5, SHORT, GOOD), 10),
        (
            Query::Binary(6, Seq { length: 0, word: 0 }, Seq { length: 1, word: 1 }),
            10,
        ),
        (
            Query::Binary(7, Seq { length: 2, word: 1 }, Seq { length: 3, word: 6 }),
            10,
        ),
        (
            Query::Binary(
                10,
                Seq {
                    length: 64,
                    word: u64::MAX,
                },
                Seq { length: 63, word: 0 },
            ),
            10,
        ),
    ]
}

/// Every code in every wrong group.
pub fn codes() -> Vec<(Query, u8)> {
    let unary = (5..=255).map(|code| (Query::Unary(code, GOOD), 7));
    let binary = (0..=4).chain(11..=255).map(|code| (Query::Binary(code, GOOD, GOOD), 7));
    unary.chain(binary).collect()
}

/// Each operator with a length above 64, alone, on the left and on the right.
pub fn lengths() -> Vec<(Query, u8)> {
    let mut rows = vec![];
    for length in [
        65,
        66,
        127,
        128,
        255,
        256,
        260,
        1 << 16,
        1 << 32,
        (1 << 32) + 4,
        1 << 63,
        u64::MAX,
    ] {
        for word in [0, 6, u64::MAX] {
            let long = Seq { length, word };
            rows.extend(UNARY.map(|(code, _)| (Query::Unary(code, long), 4)));
            rows.extend(BINARY.map(|(code, _)| (Query::Binary(code, long, GOOD), 4)));
            rows.extend(BINARY.map(|(code, _)| (Query::Binary(code, GOOD, long), 4)));
        }
    }
    rows
}

/// Each operator, each length below 64, each single bit at or above it, alone and with the bits below. At length 0 bit 0 is a place (document 02, E4).
pub fn bits() -> Vec<(Query, u8)> {
    let mut rows = vec![];
    for length in 0..64 {
        for bit in length.max(1)..64 {
            for low in [0, ones(length)] {
                let high = Seq {
                    length,
                    word: low | 1 << bit,
                };
                let good = Seq { length, word: low };
                rows.extend(UNARY.map(|(code, _)| (Query::Unary(code, high), 5)));
                rows.extend(BINARY.map(|(code, _)| (Query::Binary(code, high, good), 5)));
                rows.extend(BINARY.map(|(code, _)| (Query::Binary(code, good, high), 5)));
            }
        }
    }
    rows
}

/// Each binary operator, each two unequal lengths from 0 to 64.
pub fn unequal() -> Vec<(Query, u8)> {
    let mut rows = vec![];
    for left in 0..=64 {
        for right in (0..=64).filter(|right| *right != left) {
            let left = Seq {
                length: left,
                word: ones(left),
            };
            let right = Seq { length: right, word: 0 };
            rows.extend(BINARY.map(|(code, _)| (Query::Binary(code, left, right), 10)));
        }
    }
    rows
}

pub fn all() -> Vec<Rows> {
    vec![
        Rows {
            what: "refusals, order of checks",
            rows: order(),
        },
        Rows {
            what: "refusals, 7: code not in its group",
            rows: codes(),
        },
        Rows {
            what: "refusals, 4: a length above 64",
            rows: lengths(),
        },
        Rows {
            what: "refusals, 5: a bit at or above the length",
            rows: bits(),
        },
        Rows {
            what: "refusals, 10: unequal lengths",
            rows: unequal(),
        },
    ]
}

/// Lines of the right width that are no query. Our program's own rule; document 01 doesn't know these lines.
pub fn broken_lines() -> Vec<Vec<u8>> {
    let good = Query::Binary(5, GOOD, GOOD).line().into_bytes();
    let mut lines = vec![];
    for at in 0..good.len() {
        let is_digit = ![0, 3, 20, 37, 54, 71].contains(&at);
        for byte in [b'U', b'g', b'A', b'/', b':', b'`', b' ', b'\n', b'0', 0, 255] {
            let still_a_query = good[at] == byte || is_digit && byte == b'0';
            if !still_a_query {
                let mut line = good.clone();
                line[at] = byte;
                lines.push(line);
            }
        }
    }
    lines
}
