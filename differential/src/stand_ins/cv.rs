//! Stands in for `bool::cv::CharVec`, whose file is not in the given text: binary.rs names it in `apply_cv`, which we leave out.
use std::ops::{BitAnd, BitOr};

/// No value of it can be made, so `apply_cv` can't be called.
pub(crate) enum CharVec {}

impl BitOr for CharVec {
    type Output = Self;

    fn bitor(self, _rhs: Self) -> Self {
        match self {}
    }
}

impl BitAnd for CharVec {
    type Output = Self;

    fn bitand(self, _rhs: Self) -> Self {
        match self {}
    }
}

impl CharVec {
    pub(crate) fn implies(self, _rhs: Self) -> Self {
        match self {}
    }

    pub(crate) fn equiv(self, _rhs: Self) -> Self {
        match self {}
    }
}
