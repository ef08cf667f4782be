//! Stands in for `ltl::hash::LtlHash`, whose file is not in the given text: the number that cm.rs wraps.
use crate::HashType;

#[derive(Debug, Clone, Copy, PartialEq, Eq, Hash)]
pub(crate) struct LtlHash(pub(crate) HashType);
