//! One call, held to what it has to answer and to what has to stand in each slice afterwards.
use crate::boundary::{Boundary, Function, Slice};
use crate::words::Random;

pub struct Judged {
    library: Box<dyn Boundary>,
    pub random: Random,
    pub compared: u64,
    pub differ: u64,
    /// The first that differs.
    pub first: Option<String>,
}

/// A slice and its numbers, before or after a call.
#[derive(Clone, Debug, PartialEq, Eq)]
pub enum List {
    Bytes(Vec<u8>),
    Halves(Vec<u16>),
    Words(Vec<u64>),
    BytesOut(Vec<u8>),
    WordsOut(Vec<u64>),
}

/// What a call is given.
#[derive(Clone, Debug)]
pub struct Call {
    pub function: Function,
    pub scalars: Vec<u64>,
    pub lists: Vec<List>,
}

impl List {
    fn slice(&mut self) -> Slice<'_> {
        match self {
            List::Bytes(list) => Slice::Bytes(list),
            List::Halves(list) => Slice::Halves(list),
            List::Words(list) => Slice::Words(list),
            List::BytesOut(list) => Slice::BytesOut(list),
            List::WordsOut(list) => Slice::WordsOut(list),
        }
    }

    /// The same with these numbers at its start.
    pub fn with(&self, start: &[u64]) -> List {
        let mut list = self.clone();
        for (i, x) in start.iter().enumerate() {
            match &mut list {
                List::BytesOut(list) => list[i] = *x as u8,
                List::WordsOut(list) => list[i] = *x,
                _ => panic!("a slice that is only read"),
            }
        }
        list
    }
}

impl Judged {
    pub fn new(library: Box<dyn Boundary>) -> Self {
        Judged {
            library,
            random: Random::new(5),
            compared: 0,
            differ: 0,
            first: None,
        }
    }

    /// A slice to be written, filled with a pattern.
    pub fn words_out(&mut self, count: usize) -> List {
        List::WordsOut((0..count).map(|_| self.random.next() | 1 << 63).collect())
    }

    pub fn bytes_out(&mut self, count: usize) -> List {
        List::BytesOut((0..count).map(|_| self.random.next() as u8 | 128).collect())
    }

    /// Room for the answer's words, and sometimes some more.
    pub fn out(&mut self) -> List {
        let count = 8 + self.random.below(3) as usize;
        self.words_out(count)
    }

    /// Calls; `after` has the slices that may differ afterwards, each with its place. All others have to stay.
    pub fn hold(&mut self, call: &Call, answer: u64, after: &[(usize, List)]) {
        let mut lists = call.lists.clone();
        let mut slices: Vec<Slice> = lists.iter_mut().map(List::slice).collect();
        let said = self.library.call(call.function, &call.scalars, &mut slices);
        drop(slices);
        let mut due = call.lists.clone();
        for (at, list) in after {
            due[*at] = list.clone();
        }
        self.compared += 1;
        if said == answer && lists == due {
            return;
        }
        self.differ += 1;
        if self.first.is_none() {
            let written = (0..due.len()).find(|at| lists[*at] != due[*at]);
            let written = written.map(|at| format!(", slice {at} is {:?} and has to be {:?}", lists[at], due[at]));
            let written = written.unwrap_or_default();
            self.first = Some(format!("{call:?} answers {said} and has to answer {answer}{written}"));
        }
    }

    /// The same call is refused, and writes nothing.
    pub fn refuse(&mut self, call: &Call, number: u64) {
        self.hold(call, number, &[]);
    }
}
