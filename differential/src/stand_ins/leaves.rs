//! Stands in for the leaves of formulas, which the given text names and does not have.
use std::fmt::{Display, Formatter, Result};

/// A proposition's name and its number.
#[derive(Debug, PartialEq, Eq, Hash, Clone)]
pub struct AtomicProposition(pub String, pub usize);

#[derive(Debug, PartialEq, Eq, Hash, Clone, Copy)]
pub enum Constant {
    False,
    True,
}

impl Display for Constant {
    fn fmt(&self, f: &mut Formatter<'_>) -> Result {
        write!(f, "{}", if *self == Constant::True { "true" } else { "false" })
    }
}
