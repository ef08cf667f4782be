//! How fast `U` is in each form of until.c, in one run, by when its left word runs out of runs. differential/README.md has the command.
use std::ffi::c_void;
use std::hint::black_box;
use std::mem::transmute;
use std::process::Command;
use std::time::Instant;

use crate::boundary::Library;
use crate::oracle;
use crate::program::root;
use crate::query::{Query, Seq};
use crate::words::Random;

type Form = unsafe extern "C" fn(u64, u64) -> u64;

/// The first is what the others are held against.
const FORMS: [&str; 3] = ["straight", "tests", "loop"];
/// Rounds; the median is reported. In each round every form takes all the pairs so many times.
const ROUNDS: usize = 41;
const TIMES: u32 = 40;
const PAIRS: usize = 1024;

/// After how many doublings the word has no run left; 7 where it has one to the end.
fn doublings(x: u64) -> usize {
    let runs = [1, 2, 4, 8, 16, 32].iter().scan(x, |run, d| {
        *run &= *run >> d;
        Some(*run)
    });
    match std::iter::once(x).chain(runs).position(|run| run == 0) {
        Some(done) => done,
        None => 7,
    }
}

/// Pairs of 64 snapshots. Within a kind every left word runs out after the same number of doublings; in the last they come as they are drawn.
fn kinds() -> Vec<(String, Vec<(u64, u64)>)> {
    let mut random = Random::new(5);
    let mut drawn = |keep: &dyn Fn(u64) -> bool| -> Vec<(u64, u64)> {
        let mut pairs = vec![];
        while pairs.len() < PAIRS {
            let left = random.word(64);
            if keep(left) {
                pairs.push((left, random.word(64)));
            }
        }
        pairs
    };
    let mut kinds: Vec<_> = (0..=6)
        .map(|done| (format!("runs out after {done}"), drawn(&|left| doublings(left) == done)))
        .collect();
    kinds.push(("all ones".to_string(), drawn(&|left| left == u64::MAX)));
    kinds.push(("as drawn".to_string(), drawn(&|_| true)));
    kinds
}

fn forms() -> Result<Vec<Form>, String> {
    let made = Command::new("sh")
        .arg("differential/forms")
        .current_dir(root())
        .status();
    if !made.is_ok_and(|status| status.success()) {
        return Err("sh differential/forms failed".to_string());
    }
    let library = Library::load(&root().join("out/native/libuntil.so"))?;
    FORMS
        .iter()
        .map(|name| {
            let address = library.symbol(name);
            if address.is_null() {
                return Err(format!("until.c has no {name}"));
            }
            // SAFETY: until.c has it with that type.
            Ok(unsafe { transmute::<*mut c_void, Form>(address) })
        })
        .collect()
}

/// Nanoseconds for one call; where each is to wait for the answer before it, its right word is made to hang on that answer.
fn time(form: Form, pairs: &[(u64, u64)], wait: bool) -> f64 {
    let none = black_box(0);
    let began = Instant::now();
    for _ in 0..TIMES {
        let mut all = 0;
        for (left, right) in black_box(pairs) {
            let right = if wait { right ^ (all & none) } else { *right };
            // SAFETY: the form computes on its two words and nothing else.
            all ^= unsafe { form(*left, right) };
        }
        black_box(all);
    }
    began.elapsed().as_nanos() as f64 / (TIMES as f64 * pairs.len() as f64)
}

/// The median of each form's times, with its ratio to the first form's.
fn measure(forms: &[Form], pairs: &[(u64, u64)], wait: bool) -> String {
    let mut times = vec![vec![]; forms.len()];
    for _ in 0..ROUNDS {
        for (form, times) in forms.iter().zip(&mut times) {
            times.push(time(*form, pairs, wait));
        }
    }
    times.iter_mut().for_each(|all| all.sort_by(f64::total_cmp));
    let median = |form: usize| times[form][ROUNDS / 2];
    let said: Vec<String> = (0..forms.len())
        .map(|form| format!("{} {:.2} ({:.2})", FORMS[form], median(form), median(form) / median(0)))
        .collect();
    said.join(", ")
}

pub fn run() -> i32 {
    if cfg!(debug_assertions) {
        println!("until: only with --profile speed: checks are slow");
        return 2;
    }
    let forms = match forms() {
        Ok(forms) => forms,
        Err(error) => {
            println!("until not measured: {error}");
            return 1;
        }
    };
    println!(
        "nanoseconds a call, median of {ROUNDS} rounds; in brackets the ratio to `{}`",
        FORMS[0]
    );
    let mut wrong = 0;
    for (kind, pairs) in kinds() {
        for (left, right) in &pairs {
            let due = oracle::answer(Query::Binary(7, Seq::new(64, *left), Seq::new(64, *right))).word;
            // SAFETY: as above.
            wrong += forms
                .iter()
                .filter(|form| unsafe { form(*left, *right) } != due)
                .count();
        }
        println!("{kind}: {}", measure(&forms, &pairs, false));
        println!("{kind}, each call after the last: {}", measure(&forms, &pairs, true));
    }
    if wrong > 0 {
        println!("{wrong} ANSWERS DIFFER FROM THE RUST'S");
    }
    (wrong > 0) as i32
}
