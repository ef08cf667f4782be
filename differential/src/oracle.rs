//! The Rust's answer to a query, by `apply_cm` on matrices of one row.
use crate::ltl::{cm::CharMatrix, cs::CharSeq};
use crate::ops::{binary::LtlBinaryOp, traits::Commutativity, unary::LtlUnaryOp};
use crate::query::{Query, Seq, BINARY, UNARY};

/// The Rust's sequence, built snapshot by snapshot as the Rust's own reader does. Panics above 64 snapshots.
/// Bits at or above the length are set afterwards; `findings` alone asks for such words.
pub fn sequence(seq: Seq) -> CharSeq {
    let bit = |i: u64| i < 64 && seq.word >> i & 1 == 1;
    let mut built: CharSeq = (0..seq.length).map(bit).collect();
    assert!(built.values == seq.word || !seq.is_well_formed());
    built.values = seq.word;
    built
}

pub fn matrix(seq: Seq) -> CharMatrix {
    [sequence(seq)].into_iter().collect()
}

/// The one row of a matrix.
fn row(matrix: CharMatrix) -> Seq {
    assert_eq!(matrix.seqs.len(), 1);
    Seq::new(matrix.seqs[0].len() as u64, matrix.seqs[0].values)
}

/// The operator of a code, by its place in the Rust's own list.
pub fn unary(code: u8) -> LtlUnaryOp {
    LtlUnaryOp::all()[code as usize]
}

pub fn binary(code: u8) -> LtlBinaryOp {
    LtlBinaryOp::all()[code as usize - UNARY.len()]
}

/// What the Rust answers. Panics where the Rust panics, and where the code has no operator.
pub fn answer(query: Query) -> Seq {
    match query {
        Query::Unary(code, seq) => row(LtlUnaryOp::apply_cm(unary(code), &matrix(seq))),
        Query::Binary(code, left, right) => row(LtlBinaryOp::apply_cm(binary(code), &matrix(left), &matrix(right))),
    }
}

/// Holds the Rust's operators to document 01's codes: order, tokens both ways, commuting marks.
/// Answers how many operators were looked at, or the first that disagrees.
pub fn table() -> Result<usize, String> {
    if LtlUnaryOp::all().len() != UNARY.len() || LtlBinaryOp::all().len() != BINARY.len() {
        return Err("the Rust has another number of operators".to_string());
    }
    for (code, token) in UNARY {
        let op = unary(code);
        if op.to_string() != token || LtlUnaryOp::try_from(token) != Ok(op) {
            return Err(format!("code {code}: the Rust has {op}"));
        }
    }
    for (code, token) in BINARY {
        let op = binary(code);
        if op.to_string() != token || LtlBinaryOp::try_from(token) != Ok(op) {
            return Err(format!("code {code}: the Rust has {op}"));
        }
        if op.commutes() != [5, 6, 10].contains(&code) {
            return Err(format!("code {code}: the Rust's commuting mark is {}", op.commutes()));
        }
    }
    Ok(UNARY.len() + BINARY.len())
}
