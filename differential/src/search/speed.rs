//! How fast our search runs beside the Rust's, or beside that of an earlier library of ours, on the same inputs in the same process. Only for a build
//! with the published hash and no checks: differential/README.md has the commands.
use std::path::Path;
use std::time::{Duration, Instant};

use super::counted::Start;
use super::input::Input;
use super::lent::{search, Lens, Lent};
use crate::boundary::Linked;
use crate::words::Random;

/// Rounds; the median is reported.
const ROUNDS: usize = 15;

/// A set of inputs of one shape, with three propositions, all operators and a room that is filled: two sessions are the same but for their mark,
/// so nothing is ever found.
struct Set {
    name: &'static str,
    inputs: u64,
    r: usize,
    length: u64,
    room: usize,
}

#[rustfmt::skip]
const SETS: [Set; 9] = [
    Set { name: "2 sessions, room 200", inputs: 100, r: 2, length: 40, room: 200 },
    Set { name: "2 sessions, room 1,000", inputs: 30, r: 2, length: 40, room: 1000 },
    Set { name: "2 sessions, room 4,000", inputs: 8, r: 2, length: 40, room: 4000 },
    Set { name: "8 sessions, room 200", inputs: 100, r: 8, length: 12, room: 200 },
    Set { name: "8 sessions, room 1,000", inputs: 30, r: 8, length: 12, room: 1000 },
    Set { name: "8 sessions, room 4,000", inputs: 8, r: 8, length: 12, room: 4000 },
    Set { name: "32 sessions, room 200", inputs: 100, r: 32, length: 64, room: 200 },
    Set { name: "32 sessions, room 1,000", inputs: 20, r: 32, length: 64, room: 1000 },
    Set { name: "32 sessions, room 4,000", inputs: 5, r: 32, length: 64, room: 4000 },
];

fn inputs(set: &Set) -> Vec<Input> {
    let mut random = Random::new(3);
    (0..set.inputs)
        .map(|_| {
            let m = 3;
            let mut lengths: Vec<u8> = (1..set.r)
                .map(|_| (set.length / 2 + 1 + random.below(set.length / 2)) as u8)
                .collect();
            let mut words: Vec<u64> = lengths
                .iter()
                .flat_map(|n| (0..m).map(|_| *n as u64).collect::<Vec<_>>())
                .collect();
            words.iter_mut().for_each(|n| *n = random.word(*n));
            lengths.insert(0, lengths[0]);
            words.splice(0..0, words[..m].to_vec());
            let mut marks: Vec<u8> = (0..set.r).map(|_| random.below(2) as u8).collect();
            marks[0] = 1 - marks[1];
            Input {
                r: set.r,
                m,
                bound: 31,
                room: set.room,
                constants: 0,
                marks,
                lengths,
                words,
                unary: (0..=4).collect(),
                binary: (5..=10).collect(),
            }
        })
        .collect()
}

/// The median, and the least and the most.
struct Times {
    median: Duration,
    least: Duration,
    most: Duration,
}

impl Times {
    fn new(mut all: Vec<Duration>) -> Self {
        all.sort();
        Times {
            median: all[all.len() / 2],
            least: all[0],
            most: all[all.len() - 1],
        }
    }

    fn show(&self, tried: u64) -> String {
        let each = |time: Duration| time.as_nanos() as f64 / tried as f64;
        format!(
            "{:.0} ns ({:.0} to {:.0})",
            each(self.median),
            each(self.least),
            each(self.most)
        )
    }
}

fn measure(library: &mut Linked, set: &Set) -> bool {
    let inputs = inputs(set);
    let mut lents: Vec<Lent> = inputs.iter().map(|input| Lent::new(Lens::asked(input), 1)).collect();
    let (mut rust, mut ours) = (vec![], vec![]);
    let mut ends = vec![];
    for _ in 0..ROUNDS {
        ends.clear();
        // The Rust's tables are dropped after its time is taken.
        let mut time = Duration::ZERO;
        for input in &inputs {
            let began = Instant::now();
            let end = Start::new(input, u64::MAX).search();
            time += began.elapsed();
            ends.push((end.tried, end.kept as u64, end.dropped));
        }
        rust.push(time);
        let began = Instant::now();
        for (input, lent) in inputs.iter().zip(&mut lents) {
            search(library, input, lent);
        }
        ours.push(began.elapsed());
    }
    let alike = ends
        .iter()
        .zip(&lents)
        .all(|(end, lent)| *end == (lent.out[2], lent.out[3], lent.out[8]));
    let tried: u64 = lents.iter().map(|lent| lent.out[2]).sum();
    let kept: u64 = lents.iter().map(|lent| lent.out[3]).sum();
    let (rust, ours) = (Times::new(rust), Times::new(ours));
    println!(
        "{}: {} searches, on average {} tried and {} kept{}: the Rust {} a candidate, ours {}, ratio {:.2} (of the least times {:.2})",
        set.name,
        inputs.len(),
        tried / set.inputs,
        kept / set.inputs,
        if alike { "" } else { " (COUNTS DIFFER)" },
        rust.show(tried),
        ours.show(tried),
        ours.median.as_secs_f64() / rust.median.as_secs_f64(),
        ours.least.as_secs_f64() / rust.least.as_secs_f64()
    );
    alike
}

/// Only this thread's own time, so that other work on the machine counts little.
fn processor_time() -> Duration {
    extern "C" {
        fn clock_gettime(clock: i32, time: *mut [i64; 2]) -> i32;
    }
    const CLOCK_THREAD_CPUTIME_ID: i32 = 3;
    let mut time = [0; 2];
    // SAFETY: seconds and nanoseconds are written, as two words.
    assert_eq!(unsafe { clock_gettime(CLOCK_THREAD_CPUTIME_ID, &mut time) }, 0);
    Duration::new(time[0] as u64, time[1] as u32)
}

/// Each input's least time counts. The inputs come in turn, since a processor soon knows one by heart, and so do the libraries, since the second to
/// search an input finds it at hand. The earlier library is the first in the list.
fn measure_both(libraries: &mut [Linked; 2], set: &Set) {
    let inputs = inputs(set);
    let mut lents: Vec<Lent> = inputs.iter().map(|input| Lent::new(Lens::asked(input), 1)).collect();
    let mut least = vec![[Duration::MAX; 2]; inputs.len()];
    for round in 0..4 * ROUNDS {
        for ((input, lent), least) in inputs.iter().zip(&mut lents).zip(&mut least) {
            for which in [round % 2, 1 - round % 2] {
                let began = processor_time();
                search(&mut libraries[which], input, lent);
                least[which] = least[which].min(processor_time() - began);
            }
        }
    }
    let tried: u64 = lents.iter().map(|lent| lent.out[2]).sum();
    let times = [0, 1].map(|which| least.iter().map(|times| times[which]).sum::<Duration>());
    let [before, now] = times.map(|time| time.as_nanos() as f64 / tried as f64);
    println!(
        "{}: before {before:.1} ns a candidate, now {now:.1}, ratio {:.3}",
        set.name,
        now / before
    );
}

/// The library as it is now beside an earlier one that differential/native linked.
pub fn run_beside(file: &str) -> i32 {
    match (Linked::of(Path::new(file)), Linked::load()) {
        (Ok(before), Ok(now)) => {
            let mut libraries = [before, now];
            SETS.iter().for_each(|set| measure_both(&mut libraries, set));
            0
        }
        (before, now) => {
            [before, now]
                .into_iter()
                .filter_map(Result::err)
                .for_each(|error| println!("speed not measured: {error}"));
            1
        }
    }
}

pub fn run() -> i32 {
    if !cfg!(feature = "published-hash") || cfg!(debug_assertions) {
        println!("speed: only with --profile speed --features published-hash: exact keys and checks are slow");
        return 2;
    }
    let mut library = match Linked::load() {
        Ok(library) => library,
        Err(error) => {
            println!("speed not measured: {error}");
            return 1;
        }
    };
    println!("median of {ROUNDS} rounds for a candidate, in brackets the least and the most");
    let alike = SETS.iter().fold(true, |alike, set| measure(&mut library, set) && alike);
    (!alike) as i32
}
