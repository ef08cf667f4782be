//! Searches in slices: a walk cut into turns at random against the ending that the whole has to come to, what is refused, and states and rooms that
//! no call handed out, which have to be safe and nothing more.
use super::compare::{due, judge};
use super::drawn;
use super::input::{Input, Outcome};
use super::lent::{Lens, Lent};
use super::refused;
use super::settled;
use crate::boundary::{self, Boundary, Function, Slice, Way};
use crate::words::Random;

/// Words of a state, by include/scarfpylon.h. Those from 6 on are the library's own.
const STATE: usize = 16;
const SIZE: usize = 0;
const KEPT: usize = 1;
const TRIED: usize = 2;
const LEFT: usize = 3;
const RIGHT: usize = 4;
const POSITION: usize = 5;
/// At a size above 1: 0 while the unary operators are gone through.
const SPLIT: usize = 6;

/// The most candidates of a turn.
const BUDGET: u64 = 1_000_000;

/// The cases of `out[0]`.
const MORE: u64 = 4;

/// Numbers before and after each lent slice that is written, which have to stay.
const FENCE: usize = 5;

struct Cutting {
    library: Box<dyn Boundary>,
    random: Random,
    turns: u64,
    differ: u64,
    /// Endings with a wrong number tried, or with a formula kept one candidate late, that the comparison saw to be wrong, and those that it didn't.
    seen: u64,
    unseen: u64,
    /// The first difference.
    first: Option<String>,
}

/// What `scarfpylon_resume` answers. Of all that is lent to be written, `fence` numbers at both ends are kept back.
fn resume(
    library: &mut dyn Boundary,
    input: &Input,
    budget: u64,
    state: &mut [u64],
    lent: &mut Lent,
    fence: usize,
) -> u64 {
    fn inside<T>(slice: &mut [T], fence: usize) -> &mut [T] {
        let end = slice.len() - fence;
        &mut slice[fence..end]
    }
    let scalars = [
        input.r as u64,
        input.m as u64,
        input.bound as u64,
        input.room as u64,
        input.constants as u64,
        budget,
    ];
    let mut slices = [
        Slice::Bytes(&input.marks),
        Slice::Bytes(&input.lengths),
        Slice::Words(&input.words),
        Slice::Bytes(&input.unary),
        Slice::Bytes(&input.binary),
        Slice::BytesOut(inside(&mut lent.codes, fence)),
        Slice::HalvesOut(inside(&mut lent.lefts, fence)),
        Slice::HalvesOut(inside(&mut lent.rights, fence)),
        Slice::BytesOut(inside(&mut lent.sizes, fence)),
        Slice::WordsOut(inside(&mut lent.matrices, fence)),
        Slice::WordsOut(inside(state, fence)),
        Slice::WordsOut(inside(&mut lent.out, fence)),
    ];
    library.call(Function::Resume, &scalars, &mut slices)
}

/// Document 02's rows for a call of `resume`, in their order; 0 where none is given.
fn number(input: &Input, lens: &Lens, budget: u64, state: &[u64]) -> u64 {
    let row = refused::number(input, lens);
    if row == 1 {
        return 1;
    }
    if row == 2 || budget > BUDGET {
        return 2;
    }
    if row == 3 || state.len() < STATE {
        return 3;
    }
    if row > 0 {
        return row;
    }
    if state_wrong(input, state) {
        14
    } else {
        0
    }
}

/// "14 refuses a state with kept above C or tried, a size outside 1 to B, a place above kept or an operator position above its list's length."
fn state_wrong(input: &Input, state: &[u64]) -> bool {
    let leaves = input.m as u64 + if input.constants == 1 { 2 } else { 0 };
    let list = match (state[SIZE], state[SPLIT]) {
        (1, _) => leaves,
        (_, 0) => input.unary.len() as u64,
        _ => input.binary.len() as u64,
    };
    state[KEPT] > input.room as u64
        || state[KEPT] > state[TRIED]
        || !(1..=input.bound as u64).contains(&state[SIZE])
        || state[LEFT] > state[KEPT]
        || state[RIGHT] > state[KEPT]
        || state[POSITION] > list
}

/// A turn's budget: most often so small that there are many turns, now and then the largest.
fn budget(random: &mut Random, tried: u64) -> u64 {
    match random.below(8) {
        0 => 0,
        1 => 1,
        2 => 1 + random.below(3),
        3 => 1 + random.below(20),
        4 => 1 + random.below(1 + tried / 4),
        5 => tried / 2,
        6 => 1 + random.below(2 * tried + 1),
        _ => BUDGET - random.below(2),
    }
    .min(BUDGET)
}

impl Cutting {
    fn compared(&mut self, input: &Input, wrong: Option<String>) {
        let Some(wrong) = wrong else { return };
        self.differ += 1;
        if self.first.is_none() {
            self.first = Some(format!("{input}: {wrong}"));
        }
    }

    fn fresh(&mut self, more: usize) -> Vec<u64> {
        let mut state: Vec<u64> = (0..STATE + more).map(|_| self.random.next()).collect();
        let rest = state[STATE..].to_vec();
        let answer = self
            .library
            .call(Function::Fresh, &[], &mut [Slice::WordsOut(&mut state)]);
        assert_eq!(answer, 0, "a fresh state is refused");
        assert_eq!(rest, state[STATE..], "a fresh state is written beyond its words");
        state
    }

    /// One turn, and what is wrong with it. `expected` is what stood in the room before it, and then what has to stand there.
    fn turn(
        &mut self,
        input: &Input,
        outcome: &Outcome,
        limit: u64,
        state: &mut [u64],
        lent: &mut Lent,
    ) -> Option<String> {
        self.turns += 1;
        let (before, tried) = (state.to_vec(), state[TRIED]);
        let mut expected = lent.clone();
        let passed = input.clone();
        let answer = resume(&mut *self.library, &passed, limit, state, lent, 0);
        let ends = tried + limit >= outcome.tried;
        if ends {
            expected.write(outcome);
        } else {
            let kept = outcome.kept_by(tried + limit);
            expected.keep(outcome, kept, input.r);
            expected.out[0] = MORE;
            expected.out[2] = tried + limit;
            expected.out[3] = kept as u64;
            expected.out[8] = tried + limit - kept as u64;
        }
        if let Some(wrong) = judge(answer, 0, &passed, input, lent, &expected) {
            return Some(format!("after {tried}, budget {limit}: {wrong}"));
        }
        let counted = [(TRIED, lent.out[2], "tried"), (KEPT, lent.out[3], "kept")];
        for (word, due, what) in counted {
            if state[word] != due {
                return Some(format!(
                    "after {tried}, budget {limit}: the state has {what} {} and the answer {due}",
                    state[word]
                ));
            }
        }
        if limit == 0 && before != state {
            return Some(format!("after {tried}: budget 0 changes the state"));
        }
        if state_wrong(input, state) {
            return Some(format!(
                "after {tried}, budget {limit}: a state that 14 refuses is handed out: {state:?}"
            ));
        }
        if before[STATE..] != state[STATE..] {
            return Some(format!("after {tried}: words beyond the state were written"));
        }
        None
    }

    /// A good input, cut at random. Now and then the answers are held to a wrong ending as well, which has to show.
    fn cut(&mut self, mut input: Input, limit: u64) {
        let outcome = match due(&input, limit) {
            Ok(outcome) => outcome,
            Err(size) => {
                input.bound = size - 1;
                due(&input, limit).expect("a smaller bound ends sooner")
            }
        };
        let mut lens = Lens::asked(&input);
        refused::lengthen(&mut self.random, &mut input, &mut lens);
        let wrong = self.played(&input, lens, &outcome);
        if wrong.is_none() && self.random.below(64) == 0 {
            let mut other = outcome.clone();
            other.tried += 1;
            match self.played(&input, lens, &other) {
                Some(_) => self.seen += 1,
                None => self.unseen += 1,
            }
        }
        self.compared(&input, wrong);
    }

    /// Each turn of a cutting at random, the end, and the end once more; what is wrong.
    fn played(&mut self, input: &Input, lens: Lens, outcome: &Outcome) -> Option<String> {
        let start = Lent::new(lens, self.random.next());
        let mut lent = start.clone();
        let more = self.random.below(3) as usize;
        let mut state = self.fresh(more);
        // A cutting into thousands of turns costs more than it shows.
        let mut turns = 0;
        while state[TRIED] < outcome.tried {
            turns += 1;
            let limit = if turns > 60 {
                BUDGET
            } else {
                budget(&mut self.random, outcome.tried)
            };
            let wrong = self.turn(input, outcome, limit, &mut state, &mut lent);
            if wrong.is_some() {
                return wrong;
            }
            if self.random.below(16) == 0 {
                let wrong = self.at_once(input, &start, &state, &lent);
                if wrong.is_some() {
                    return wrong;
                }
            }
        }
        let (ended, left) = (state.clone(), lent.clone());
        for limit in [0, 1 + self.random.below(5), BUDGET] {
            let wrong = self.turn(input, outcome, limit, &mut state, &mut lent);
            if wrong.is_some() {
                return wrong;
            }
        }
        (ended != state || left != lent).then(|| "a call after the end changes something".to_string())
    }

    /// What many turns came to, one turn comes to.
    fn at_once(&mut self, input: &Input, start: &Lent, state: &[u64], lent: &Lent) -> Option<String> {
        let mut once = self.fresh(0);
        let mut room = start.clone();
        let answer = resume(&mut *self.library, input, state[TRIED], &mut once, &mut room, 0);
        // The answer's words that no line names stay: those of another case are left from an earlier turn.
        let same = answer == 0 && once == state[..STATE] && room.out[0] == lent.out[0];
        let mut room_only = room.clone();
        room_only.out.clone_from(&lent.out);
        if !same || room_only != *lent {
            return Some(format!(
                "{} candidates at once come to another state or room than in turns",
                state[TRIED]
            ));
        }
        None
    }

    /// An input, a budget or a state with something broken: the number, and nothing written.
    fn broken(&mut self, seed: u64) -> bool {
        let (input, lens) = refused::draw(seed);
        let mut state = self.fresh(0);
        let mut limit = self.random.below(100);
        match self.random.below(6) {
            0 => limit = BUDGET + 1 + self.random.below(3),
            1 => limit = u64::MAX - self.random.below(3),
            2 => state.truncate(self.random.below(STATE as u64) as usize),
            3 => state[self.random.below(6) as usize] = self.random.next(),
            _ => {}
        }
        let due = number(&input, &lens, limit, &state);
        if due == 0 {
            return false;
        }
        let before = Lent::new(lens, self.random.next());
        let (mut lent, given) = (before.clone(), state.clone());
        let passed = input.clone();
        let answer = resume(&mut *self.library, &passed, limit, &mut state, &mut lent, 0);
        let wrong = judge(answer, due, &passed, &input, &lent, &before);
        let wrong = wrong.or_else(|| (state != given).then(|| format!("refused {due}, and the state was written")));
        self.compared(&input, wrong);
        true
    }

    /// A word near the edges of a range, or far from it.
    fn about(&mut self, most: u64) -> u64 {
        match self.random.below(16) {
            0 => most + 1,
            1 => u64::MAX - self.random.below(3),
            2 => self.random.next(),
            3 => (1 << (8 * (1 + self.random.below(4)))) + self.random.below(3),
            4..=6 => most,
            7 => 0,
            _ => self.random.below(most + 1),
        }
    }

    /// A state that nobody handed out.
    fn made_up(&mut self, input: &Input) -> Vec<u64> {
        let mut state: Vec<u64> = (0..STATE).map(|_| self.random.next()).collect();
        if self.random.below(8) > 0 {
            state[SIZE] = self.about(input.bound as u64);
            state[KEPT] = self.about(input.room as u64);
            state[TRIED] = match self.random.below(4) {
                0 => state[KEPT],
                1 => u64::MAX - self.random.below(20),
                _ => state[KEPT].saturating_add(self.random.below(1000)),
            };
            let kept = state[KEPT].min(input.room as u64);
            state[LEFT] = self.about(kept);
            state[RIGHT] = self.about(kept);
            let long = input.unary.len().max(input.binary.len()) as u64;
            state[POSITION] = self.about(long);
            for word in state[SPLIT..].iter_mut() {
                *word = match self.random.below(4) {
                    0 => self.random.next(),
                    1 => 0,
                    _ => self.random.below(34),
                };
            }
        }
        state
    }

    /// Anything in the room: noise, small numbers as places and sizes are, or nothing.
    fn noise(&mut self, lent: &mut Lent) {
        let kind = self.random.below(4);
        let random = &mut self.random;
        let mut any = |most: u64| match kind {
            0 => random.next(),
            1 => 0,
            _ => random.below(most),
        };
        lent.codes.iter_mut().for_each(|x| *x = any(20) as u8);
        lent.lefts.iter_mut().for_each(|x| *x = any(70) as u16);
        lent.rights.iter_mut().for_each(|x| *x = any(70) as u16);
        lent.sizes.iter_mut().for_each(|x| *x = any(33) as u8);
        lent.matrices.iter_mut().for_each(|x| *x = any(16));
    }

    /// A made-up state over a made-up room: refused by 14 exactly where document 02 says, and else safe: the budget is kept to, nothing outside the
    /// table's own places is written, and what is left passes the next call.
    fn safe(&mut self, seed: u64) {
        let (mut input, _) = drawn::draw(seed);
        input.room = 1 + input.room % 64;
        let mut lens = Lens::asked(&input);
        refused::lengthen(&mut self.random, &mut input, &mut lens);
        let due = |state: &[u64]| number(&input, &lens, 0, state);
        let mut fenced = lens;
        for count in [
            &mut fenced.codes,
            &mut fenced.lefts,
            &mut fenced.rights,
            &mut fenced.sizes,
            &mut fenced.matrices,
            &mut fenced.out,
        ] {
            *count += 2 * FENCE;
        }
        let mut lent = Lent::new(fenced, self.random.next());
        self.noise(&mut lent);
        let words = self.made_up(&input);
        let mut state = vec![self.random.next(); STATE + 2 * FENCE];
        state[FENCE..FENCE + STATE].copy_from_slice(&words);
        let limit = match self.random.below(12) {
            0 => 0,
            1 => 20_000,
            _ => self.random.below(300),
        };
        let mut wrong = None;
        for again in 0..2 {
            let (room, held) = (lent.clone(), state.clone());
            let due = due(&state[FENCE..FENCE + STATE]);
            if again == 1 && due != 0 {
                wrong = Some(format!(
                    "what a call left is refused by {due}: {:?}",
                    &state[FENCE..FENCE + STATE]
                ));
                break;
            }
            let passed = input.clone();
            let answer = resume(&mut *self.library, &passed, limit, &mut state, &mut lent, FENCE);
            self.turns += 1;
            if answer != due {
                wrong = Some(format!(
                    "answers {answer} and has to answer {due}: {:?}",
                    &held[FENCE..FENCE + STATE]
                ));
            } else if due != 0 {
                if lent != room || state != held {
                    wrong = Some("refused 14, and something was written".to_string());
                }
                break;
            } else {
                let (then, now) = (held[FENCE + TRIED], state[FENCE + TRIED]);
                wrong = outside(&input, &room, &lent)
                    .or_else(|| {
                        (held[..FENCE] != state[..FENCE] || held[FENCE + STATE..] != state[FENCE + STATE..])
                            .then(|| "beyond the state".to_string())
                    })
                    .or_else(|| {
                        (now < then || now - then > limit)
                            .then(|| format!("tried grows from {then} to {now} with budget {limit}"))
                    })
                    .or_else(|| {
                        (lent.out[FENCE + 2] != now)
                            .then(|| "the answer has another number tried than the state".to_string())
                    })
                    .or_else(|| (!(1..=4).contains(&lent.out[FENCE])).then(|| "no case of an answer".to_string()));
            }
            if wrong.is_some() {
                break;
            }
        }
        self.compared(&input, wrong);
    }
}

/// Whether something outside the C places of the table was written, or a word of `out` that no line names.
fn outside(input: &Input, before: &Lent, after: &Lent) -> Option<String> {
    fn first<T: PartialEq>(what: &str, before: &[T], after: &[T], places: usize) -> Option<String> {
        let at = (0..before.len()).find(|i| before[*i] != after[*i] && !(FENCE..FENCE + places).contains(i))?;
        Some(format!(
            "{what}: written {} from the fence on, with {places} places",
            at as i64 - FENCE as i64
        ))
    }
    first("codes", &before.codes, &after.codes, input.room)
        .or_else(|| first("lefts", &before.lefts, &after.lefts, input.room))
        .or_else(|| first("rights", &before.rights, &after.rights, input.room))
        .or_else(|| first("sizes", &before.sizes, &after.sizes, input.room))
        .or_else(|| first("matrices", &before.matrices, &after.matrices, input.room * input.r))
        .or_else(|| first("out", &before.out, &after.out, 9))
}

pub fn run(way: Way, count: u64) -> i32 {
    let Some(library) = boundary::opened(way, "slices") else {
        return 1;
    };
    let mut cutting = Cutting {
        library,
        random: Random::new(7),
        turns: 0,
        differ: 0,
        seen: 0,
        unseen: 0,
        first: None,
    };
    let mut settled = 0;
    for example in settled::taken() {
        cutting.cut(example.input, u64::MAX);
        settled += 1;
    }
    for seed in 0..count {
        let (input, limit) = drawn::draw(seed);
        cutting.cut(input, limit);
    }
    let turns = std::mem::take(&mut cutting.turns);
    println!(
        "S1 to S5 and {count} random searches, cut into {turns} turns: {} differ",
        cutting.differ
    );
    let broken = (0..count / 4).filter(|seed| cutting.broken(*seed)).count();
    for seed in 0..count {
        cutting.safe(seed);
    }
    println!(
        "{broken} refused calls, {count} made-up states over made-up rooms, in {} turns",
        cutting.turns
    );
    if let Some(first) = &cutting.first {
        println!("  the first difference: {first}");
    }
    println!(
        "wrong endings: {} seen to be wrong, {} not seen",
        cutting.seen, cutting.unseen
    );
    println!(
        "compared {} cuttings, {broken} refusals, {count} made-up states, {} differ",
        settled + count,
        cutting.differ
    );
    (cutting.differ > 0 || cutting.unseen > 0) as i32
}
