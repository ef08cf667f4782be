//! Stands in for `traits`, whose file is not in the given text: what the Rust's formulas and caches ask of a matrix.
use std::fmt::Debug;
use std::hash::Hash;

pub trait Hashed {
    type HashType: Debug + Clone + PartialEq + Eq + Hash;

    fn hashed(&self) -> Self::HashType;
}

pub trait EqTarget {
    type TargetType: ?Sized;

    fn eq_target(&self, target: &Self::TargetType) -> bool;
}
