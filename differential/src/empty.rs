//! Document 02, E4, by its prose: what is accepted on the empty trace, as a table. The Rust accepts nothing there and its words have no place, so it is
//! not asked: what has to be answered about an empty session comes from here, and everything from one snapshot on from the Rust.
use crate::formula::tree::FormulaTree;
use crate::ltl::Constant;
use crate::ops::{binary::LtlBinaryOp, unary::LtlUnaryOp};
use crate::oracle;
use crate::query::{Query, Seq, UNARY};

/// `X[!]` and `F` are not accepted, `X` and `G` are; `!` follows its child.
pub fn unary(code: u8, child: bool) -> bool {
    match code {
        0 => !child,
        1 | 4 => true,
        2 | 3 => false,
        _ => panic!("no unary operator has the code {code}"),
    }
}

/// `U` is not accepted, `R` is; the Boolean operators follow their children.
pub fn binary(code: u8, left: bool, right: bool) -> bool {
    match code {
        5 => left || right,
        6 => left && right,
        7 => false,
        8 => true,
        9 => !left || right,
        10 => left == right,
        _ => panic!("no binary operator has the code {code}"),
    }
}

/// Whether an empty session accepts the formula: no proposition, and true.
pub fn accepts(tree: &FormulaTree) -> bool {
    match tree {
        FormulaTree::Atom(_) => false,
        FormulaTree::Const(constant) => *constant == Constant::True,
        FormulaTree::UnaryNode { op, child } => {
            let code = LtlUnaryOp::all().iter().position(|other| other == op).unwrap();
            unary(code as u8, accepts(child))
        }
        FormulaTree::BinaryNode { op, left, right } => {
            let code = UNARY.len() + LtlBinaryOp::all().iter().position(|other| other == op).unwrap();
            binary(code as u8, accepts(left), accepts(right))
        }
    }
}

/// What has to be answered: on the empty trace bit 0 of a word is its acceptance.
pub fn due(query: Query) -> Seq {
    let bit = |seq: Seq| seq.word == 1;
    match query {
        Query::Unary(code, seq) if seq.length == 0 => Seq::new(0, unary(code, bit(seq)) as u64),
        Query::Binary(code, left, right) if left.length == 0 => Seq::new(0, binary(code, bit(left), bit(right)) as u64),
        _ => oracle::answer(query),
    }
}
