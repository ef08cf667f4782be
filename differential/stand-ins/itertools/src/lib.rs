//! Stands in for `itertools`: `cartesian_product`, with the published order: for each on the left, each on the right.

pub trait Itertools: Iterator {
    fn cartesian_product<J>(mut self, right: J) -> Product<Self, J::IntoIter>
    where
        Self: Sized,
        Self::Item: Clone,
        J: IntoIterator,
        J::IntoIter: Clone,
    {
        let all = right.into_iter();
        Product {
            at: self.next(),
            left: self,
            right: all.clone(),
            all,
        }
    }
}

impl<I: Iterator> Itertools for I {}

pub struct Product<I: Iterator, J> {
    /// The one on the left whose pairs come up now.
    at: Option<I::Item>,
    left: I,
    right: J,
    all: J,
}

impl<I, J> Iterator for Product<I, J>
where
    I: Iterator,
    I::Item: Clone,
    J: Iterator + Clone,
{
    type Item = (I::Item, J::Item);

    fn next(&mut self) -> Option<Self::Item> {
        loop {
            let left = self.at.as_ref()?;
            if let Some(right) = self.right.next() {
                return Some((left.clone(), right));
            }
            self.right = self.all.clone();
            self.at = self.left.next();
        }
    }
}
