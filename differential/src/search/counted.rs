//! The Rust's search: `enum_aux` over `LtlCache`, both unchanged, with the candidates counted and the room kept by a wrapper around the cache.
//!
//! `enum_aux` hands each candidate that doesn't separate to the cache's line, so the wrapper sees them all. A line's own answer says whether a
//! candidate is new. The first new one beyond the room is where document 01's walk is full; from there on the wrapper hands out no formula to
//! combine and takes none, and what `enum_aux` still answers is not looked at.
use std::cell::{Cell, RefCell};
use std::collections::HashMap;
use std::rc::Rc;

use super::input::{Ending, Input, Node, Outcome};
use crate::algos::aux::enum_aux;
use crate::cache::{EnumFormulaCache, EnumFormulaCacheLine, FormulaCache};
use crate::formula::tree::FormulaTree;
use crate::formula::{Formula, FormulaNode};
use crate::ltl::cache::{LtlCache, LtlCacheLine};
use crate::ltl::charac::LtlCharac;
use crate::ltl::hash::LtlHash;
use crate::ltl::trace::{Operators, Trace};
use crate::ltl::{AtomicProposition, Constant, LtlFormula};
use crate::ops::{binary::LtlBinaryOp, unary::LtlUnaryOp};
use crate::oracle;
use crate::query::Seq;
use crate::traits::{EqTarget, Hashed};

/// What the wrapper, its lines and its iterators share.
#[derive(Debug)]
struct Count {
    room: usize,
    /// More candidates than this are not tried, so that a random input can't run for hours.
    limit: u64,
    tried: Cell<u64>,
    /// Those that the Rust's line did not take.
    dropped: Cell<u64>,
    kept: Cell<usize>,
    kept_at: RefCell<Vec<u64>>,
    stopped: Cell<Option<Stop>>,
}

#[derive(Clone, Copy, Debug, PartialEq, Eq)]
enum Stop {
    /// A place beyond the room was needed, at this size.
    Full(usize),
    /// The limit was reached, at this size.
    TooLong(usize),
}

impl Count {
    fn goes_on(&self) -> bool {
        self.stopped.get().is_none()
    }
}

#[derive(Debug)]
struct Counted {
    cache: LtlCache,
    count: Rc<Count>,
}

struct CountedLine<'a> {
    line: LtlCacheLine<'a>,
    size: usize,
    count: Rc<Count>,
}

impl EnumFormulaCacheLine<LtlCharac> for CountedLine<'_> {
    fn push(&mut self, f: LtlFormula) -> bool {
        let count = &self.count;
        if !count.goes_on() {
            return false;
        }
        if count.tried.get() == count.limit {
            count.stopped.set(Some(Stop::TooLong(self.size)));
            return false;
        }
        count.tried.set(count.tried.get() + 1);
        let new = self.line.push(f);
        if new {
            if count.kept.get() == count.room {
                count.stopped.set(Some(Stop::Full(self.size)));
            } else {
                count.kept.set(count.kept.get() + 1);
                count.kept_at.borrow_mut().push(count.tried.get());
            }
        } else {
            count.dropped.set(count.dropped.get() + 1);
        }
        new
    }
}

impl FormulaCache<LtlCharac> for Counted {
    fn len(&self) -> usize {
        self.cache.len()
    }

    fn get(&self, hash: &LtlHash) -> Option<&LtlFormula> {
        self.cache.get(hash)
    }
}

impl IntoIterator for Counted {
    type Item = LtlFormula;
    type IntoIter = <LtlCache as IntoIterator>::IntoIter;

    fn into_iter(self) -> Self::IntoIter {
        self.cache.into_iter()
    }
}

impl EnumFormulaCache<LtlCharac> for Counted {
    type CacheLine<'a> = CountedLine<'a>;

    fn new_line_and_iter_size<'a>(
        &'a mut self,
        size: usize,
    ) -> (
        impl Iterator<Item = &'a LtlFormula>,
        impl Iterator<Item = (&'a LtlFormula, &'a LtlFormula)>,
        Self::CacheLine<'a>,
    )
    where
        LtlCharac: 'a,
    {
        let (one, two) = (self.count.clone(), self.count.clone());
        let count = self.count.clone();
        let (formulas, pairs, line) = self.cache.new_line_and_iter_size(size);
        (
            formulas.take_while(move |_| one.goes_on()),
            pairs.take_while(move |_| two.goes_on()),
            CountedLine { line, size, count },
        )
    }

    fn iter_size<'a>(&'a self, size: usize) -> impl Iterator<Item = &'a LtlFormula>
    where
        LtlCharac: 'a,
    {
        self.cache.iter_size(size)
    }

    fn new_line<'a>(&'a mut self, size: usize) -> Self::CacheLine<'a>
    where
        LtlCharac: 'a,
    {
        let count = self.count.clone();
        let line = self.cache.new_line(size);
        CountedLine { line, size, count }
    }

    fn nb_lines(&self) -> usize {
        self.cache.nb_lines()
    }
}

/// The sessions as the Rust has them.
pub fn traces(input: &Input) -> Vec<Trace> {
    let sequence = |j, p| oracle::sequence(Seq::new(input.lengths[j] as u64, input.word(j, p)));
    (0..input.r)
        .map(|j| Trace {
            atomic_propositions: (0..input.m).map(|p| sequence(j, p)).collect(),
        })
        .collect()
}

/// The leaves in document 01's order.
pub fn leaves(input: &Input) -> Vec<FormulaTree> {
    let atom = |p: usize| FormulaTree::Atom(AtomicProposition(format!("p{p}"), p));
    let mut leaves: Vec<FormulaTree> = (0..input.m).map(atom).collect();
    if input.constants == 1 {
        leaves.push(FormulaTree::Const(Constant::False));
        leaves.push(FormulaTree::Const(Constant::True));
    }
    leaves
}

/// What the Rust is handed: all that is made before its search begins.
pub struct Start {
    pub bound: usize,
    pub operators: Operators,
    pub target: Vec<bool>,
    pub seeds: Vec<LtlFormula>,
    count: Rc<Count>,
}

/// How the Rust's search ended, with its cache.
pub struct End {
    cache: LtlCache,
    found: Option<LtlFormula>,
    stopped: Option<Stop>,
    pub tried: u64,
    pub kept: usize,
    pub dropped: u64,
    kept_at: Vec<u64>,
}

impl Start {
    pub fn new(input: &Input, limit: u64) -> Self {
        let traces = traces(input);
        let seed = |leaf: FormulaTree| Formula::new_base(LtlCharac::new(leaf.eval(&traces)), 1, Rc::new(leaf));
        Start {
            bound: input.bound,
            operators: Operators {
                unary: input.unary.iter().map(|code| oracle::unary(*code)).collect(),
                binary: input.binary.iter().map(|code| oracle::binary(*code)).collect(),
            },
            target: input.marks[..input.r].iter().map(|mark| *mark == 1).collect(),
            seeds: leaves(input).into_iter().map(seed).collect(),
            count: Rc::new(Count {
                room: input.room,
                limit,
                tried: Cell::new(0),
                dropped: Cell::new(0),
                kept: Cell::new(0),
                kept_at: RefCell::new(vec![]),
                stopped: Cell::new(None),
            }),
        }
    }

    /// The first filling of the table, which the given text of the Rust doesn't have, by document 01: each leaf is tried before it is kept.
    /// Then the Rust's own search.
    pub fn search(self) -> End {
        let mut cache = Counted {
            cache: LtlCache::new(),
            count: self.count.clone(),
        };
        // No formula has size 0; the Rust counts its lines from there.
        cache.new_line(0);
        let mut found = None;
        let mut line = cache.new_line(1);
        for seed in self.seeds {
            if !self.count.goes_on() {
                break;
            }
            if seed.eq_target(&self.target[..]) {
                found = Some(seed);
                break;
            }
            line.push(seed);
        }
        if found.is_none() && self.count.goes_on() {
            found = enum_aux(&mut cache, &self.operators, &self.target[..], self.bound);
        }
        let stopped = self.count.stopped.get();
        End {
            cache: cache.cache,
            tried: self.count.tried.get() + (found.is_some() && stopped.is_none()) as u64,
            kept: self.count.kept.get(),
            dropped: self.count.dropped.get(),
            kept_at: self.count.kept_at.take(),
            found,
            stopped,
        }
    }
}

/// The place of each kept formula, by its hash.
type Places = HashMap<LtlHash, u16>;

fn node(f: &LtlFormula, places: &Places) -> Node {
    let place = |hash: &LtlHash| places[hash];
    let (code, left, right) = match &f.node {
        FormulaNode::Base(tree) => match &**tree {
            FormulaTree::Atom(AtomicProposition(_, p)) => (16, *p as u16, 0),
            FormulaTree::Const(Constant::False) => (17, 0, 0),
            FormulaTree::Const(Constant::True) => (18, 0, 0),
            _ => panic!("a seed that is no leaf"),
        },
        FormulaNode::Unary { op, child } => {
            let code = LtlUnaryOp::all().iter().position(|other| other == op).unwrap();
            (code as u8, place(child), 0)
        }
        FormulaNode::Binary { op, left, right } => {
            let code = 5 + LtlBinaryOp::all().iter().position(|other| other == op).unwrap();
            (code as u8, place(left), place(right))
        }
    };
    Node {
        code,
        left,
        right,
        size: f.size as u8,
    }
}

/// How the Rust's search ends, or the size at which it had tried more than `limit` candidates.
pub fn outcome(input: &Input, limit: u64) -> Result<Outcome, usize> {
    fxhash::forget();
    let end = Start::new(input, limit).search();
    if let Some(Stop::TooLong(size)) = end.stopped {
        return Err(size);
    }
    let mut places = Places::new();
    let mut nodes = vec![];
    let mut matrices = vec![];
    // The one that found no place is the last.
    for f in end.cache.lines.iter().flatten().take(end.kept) {
        nodes.push(node(f, &places));
        assert_eq!(f.charac.cm.seqs.len(), input.r);
        for (row, length) in f.charac.cm.seqs.iter().zip(&input.lengths) {
            assert_eq!(row.len(), *length as usize);
            matrices.push(row.values);
        }
        places.insert(f.hashed(), nodes.len() as u16 - 1);
    }
    assert_eq!(places.len(), end.kept);
    let ending = match (end.stopped, &end.found) {
        (Some(Stop::Full(size)), _) => Ending::Full(size as u8),
        (_, Some(root)) => Ending::Found(node(root, &places)),
        _ => Ending::None,
    };
    Ok(Outcome {
        ending,
        tried: end.tried,
        dropped: end.dropped,
        nodes,
        matrices,
        kept_at: end.kept_at,
    })
}
