//! The harness: asks the Rust's own operators, formulas and search, and walks written from document 01's prose, and our compiled programs and library
//! the same questions, and compares every value.

// The Rust's files, unchanged, and the stand-ins for what is missing, as build.rs found them.
include!(concat!(env!("OUT_DIR"), "/the_rust.rs"));

/// As in the Rust's lib.rs.
type HashType = u64;

mod boundary;
mod calls;
mod compare;
mod damage;
mod empty;
mod findings;
mod formulas;
mod judge;
mod oracle;
mod parses;
mod program;
mod query;
mod refusals;
mod sample;
mod search;
mod settled;
mod until;
mod words;

use boundary::Way;

const USAGE: &str = "differential: one of
  compare [RANDOM_WORDS]   the Rust's answers against our program's (default: 1000 random words a length)
  compare --short          the same with fewer edge pairs and 10 random words a length
  formulas [ROUNDS]        random formulas of each size 1 to 31: check and print against the Rust's eval and Display (default: 20 rounds)
  damage [FILES]           damaged session files: the bench's whole output against a judge of its own (default: 100000 files)
  searches [COUNT]         whole searches: every small one and random ones, against the Rust's own search (default: 200000 random ones)
  searches --short         the same with fewer of both
  searches --archive ..    the same through the archive that ships, in a program of its own (default: 2000 random ones)
  slices [COUNT]           searches cut into turns at random, against the same, and states and rooms that no call handed out (default: 100000 of each);
                           --short and --archive as above
  calls [ROUNDS]           operators, check, print and read of the C boundary (default: 20 rounds); with --archive before it, as above
  parses [COUNT]           formulas read from text, against a reader written from document 02's prose: every short text and COUNT random ones
                           (default: 100000); with --archive before it, as above, the random ones alone (default: 2000)
  parses --short           the same with fewer of both
  speed                    how fast our search runs beside the Rust's; only with --profile speed --features published-hash
  speed --beside FILE      how fast it runs beside an earlier library of ours (an absolute path); with the same profile
  until                    how fast `U` is in each form that was tried; only with --profile speed
  collision                an input on which the Rust's published hash loses a formula (with --features published-hash; without, exact keys)
  sample                   writes the stored answers anew: crates/run_replay/stdin and stdout, crates/run_settled/stdout, crates/run_searches/stdin and stdout
  findings                 what the Rust does outside document 01's domain";

fn main() {
    let words: Vec<String> = std::env::args().skip(1).collect();
    let words: Vec<&str> = words.iter().map(String::as_str).collect();
    let status = match words.as_slice() {
        ["compare"] => compare::run(compare::Extent::full(1000)),
        ["compare", "--short"] => compare::run(compare::Extent::short()),
        ["compare", count] => match count.parse() {
            Ok(count) => compare::run(compare::Extent::full(count)),
            Err(_) => usage(),
        },
        ["formulas"] => formulas::run(20),
        ["formulas", count] => match count.parse() {
            Ok(count) => formulas::run(count),
            Err(_) => usage(),
        },
        ["damage"] => damage::run(100_000),
        ["damage", count] => match count.parse() {
            Ok(count) => damage::run(count),
            Err(_) => usage(),
        },
        ["searches", rest @ ..] => searches(rest),
        ["slices", rest @ ..] => slices(rest),
        ["calls", rest @ ..] => calls(rest),
        ["parses", rest @ ..] => parses(rest),
        ["collision"] => search::collision(),
        ["speed"] => search::speed(),
        ["speed", "--beside", file] => search::speed_beside(file),
        ["until"] => until::run(),
        ["sample"] => sample::run(),
        ["findings"] => findings::run(),
        _ => usage(),
    };
    std::process::exit(status);
}

fn searches(words: &[&str]) -> i32 {
    let (way, most, extent, rest): (Way, u64, fn(u64) -> search::Extent, &[&str]) = match words {
        ["--archive", rest @ ..] => (Way::Served, 2_000, search::Extent::thin, rest),
        rest => (Way::Linked, 200_000, search::Extent::full, rest),
    };
    let extent = match rest {
        [] => Some(extent(most)),
        ["--short"] => Some(search::Extent::short()),
        [count] => count.parse().ok().map(extent),
        _ => None,
    };
    extent.map_or_else(usage, |extent| search::run(way, extent))
}

fn slices(words: &[&str]) -> i32 {
    let (way, most, rest) = match words {
        ["--archive", rest @ ..] => (Way::Served, 500, rest),
        rest => (Way::Linked, 100_000, rest),
    };
    let count = match rest {
        [] => Some(most),
        ["--short"] => Some(300),
        [count] => count.parse().ok(),
        _ => None,
    };
    count.map_or_else(usage, |count| search::slices(way, count))
}

fn calls(words: &[&str]) -> i32 {
    let (way, rest) = match words {
        ["--archive", rest @ ..] => (Way::Served, rest),
        rest => (Way::Linked, rest),
    };
    let rounds = match rest {
        [] => Some(20),
        [count] => count.parse().ok(),
        _ => None,
    };
    rounds.map_or_else(usage, |rounds| calls::run(way, rounds))
}

fn parses(words: &[&str]) -> i32 {
    let (way, most, rest) = match words {
        ["--archive", rest @ ..] => (Way::Served, 2_000, rest),
        rest => (Way::Linked, 100_000, rest),
    };
    let extent = match rest {
        [] => Some(parses::Extent::full(way, most)),
        ["--short"] => Some(parses::Extent::short(way)),
        [count] => count.parse().ok().map(|count| parses::Extent::full(way, count)),
        _ => None,
    };
    extent.map_or_else(usage, |extent| parses::run(way, extent))
}

fn usage() -> i32 {
    eprintln!("{USAGE}");
    2
}
