//! Stands in for trace.rs, cut to `Trace` and `Operators`: the rest reads JSON and formulas, which needs serde and pest.
use crate::ops::{binary::LtlBinaryOp, unary::LtlUnaryOp};

use super::cs::CharSeq;

/// Stores the [`CharSeq`] of each atomic_proposition on a given trace.
#[derive(Debug, PartialEq, Eq, Hash, Clone)]
pub struct Trace {
    pub atomic_propositions: Box<[CharSeq]>,
}

#[derive(Debug, PartialEq, Eq, Clone)]
pub struct Operators {
    pub(crate) unary: Vec<LtlUnaryOp>,
    pub(crate) binary: Vec<LtlBinaryOp>,
}
