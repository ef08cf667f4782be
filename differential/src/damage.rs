//! Damaged session files: what the compiled bench writes, byte by byte, against a judge written from document 01's prose.
use std::collections::BTreeMap;
use std::io::{ErrorKind, Read, Write};
use std::path::Path;
use std::process::{Command, Stdio};
use std::sync::atomic::{AtomicUsize, Ordering};
use std::sync::Mutex;
use std::thread;
use std::time::{Duration, Instant};

use crate::judge::{judge, RESERVED, ROOM};
use crate::program::{path, root};
use crate::words::Random;

/// S1 of document 01.
const S1: [u8; 40] = [
    1, 1, 0x70, 2, 1, 2, 2, 0, 0, 0, 0, 0, 0, 0, 0, 2, 0, 0, 0, 0, 0, 0, 0, 0, 5, 0, 1, 2, 3, 4, 6, 5, 6, 7, 8, 9, 10,
    2, 0, 4,
];

/// The largest good file.
const LARGEST: usize = 4450;

/// How many units of work (one operator on one session) a walk may cost, so that the run ends in reasonable time. A few files are asked whatever they cost.
const SHORT_WALK: u64 = 3_000;
const ANY_WALK: u64 = 40_000_000;

/// How many programs run at a time.
const AT_ONCE: usize = 2;

/// A file, and how it is handed over: at once, or in pieces of so many bytes.
struct Question {
    file: Vec<u8>,
    pieces: usize,
    limit: u64,
}

struct Files {
    random: Random,
    list: Vec<Question>,
}

impl Files {
    fn ask(&mut self, file: Vec<u8>) {
        // Every fiftieth file comes in pieces, as a pipe may hand it over.
        let pieces = if self.list.len() % 50 == 7 {
            1 + self.random.below(9) as usize
        } else {
            0
        };
        self.list.push(Question {
            file,
            pieces,
            limit: SHORT_WALK,
        });
    }

    fn ask_whatever(&mut self, file: Vec<u8>) {
        self.list.push(Question {
            file,
            pieces: 0,
            limit: ANY_WALK,
        });
    }

    fn below(&mut self, bound: usize) -> usize {
        self.random.below(bound as u64) as usize
    }

    /// Some of the codes, in any order, each once.
    fn codes(&mut self, group: std::ops::RangeInclusive<u8>) -> Vec<u8> {
        let mut left: Vec<u8> = group.collect();
        let count = self.below(left.len() + 1);
        (0..count)
            .map(|_| {
                let at = self.below(left.len());
                left.remove(at)
            })
            .collect()
    }

    fn name(&mut self, before: &[Vec<u8>], length: usize) -> Vec<u8> {
        const LETTERS: &[u8] = b"abcdefghijklmnopqrstuvwxyzABCDEFGHIJKLMNOPQRSTUVWXYZ0123456789_";
        loop {
            let name: Vec<u8> = (0..length)
                .map(|place| LETTERS[self.below(if place == 0 { 52 } else { LETTERS.len() })])
                .collect();
            if !before.contains(&name) && !RESERVED.iter().any(|word| word.as_bytes() == name) {
                return name;
            }
        }
    }

    /// A good file. Small ones and large ones, empty sessions, repeated sessions with other marks, all bounds.
    fn good(&mut self, largest: bool) -> Vec<u8> {
        let few = self.below(4) > 0;
        let m = if largest {
            16
        } else {
            1 + self.below(if few { 3 } else { 16 })
        };
        let r = if largest {
            32
        } else {
            1 + self.below(if few { 5 } else { 32 })
        };
        let mut file = vec![m as u8];
        let mut names: Vec<Vec<u8>> = vec![];
        for _ in 0..m {
            let length = if largest { 16 } else { 1 + self.below(16) };
            let name = self.name(&names, length);
            file.push(length as u8);
            file.extend(&name);
            names.push(name);
        }
        file.push(r as u8);
        let longest = [0, 1, 2, 4, 8, 64][self.below(6)];
        let mut one = vec![];
        for _ in 0..r {
            let mark = self.below(2) as u8;
            if one.is_empty() || self.below(8) > 0 {
                let length = self.below(longest + 1);
                one = vec![length as u8];
                for _ in 0..m {
                    one.extend(self.random.word(length as u64).to_le_bytes());
                }
            }
            file.push(mark);
            file.extend(&one);
        }
        let (unary, binary) = if largest {
            ((0..5).collect(), (5..11).collect())
        } else {
            (self.codes(0..=4), self.codes(5..=10))
        };
        for codes in [unary, binary] {
            file.push(codes.len() as u8);
            file.extend(&codes);
        }
        let bound = if self.below(4) == 0 {
            1 + self.below(31)
        } else {
            1 + self.below(5)
        };
        file.extend([2, self.below(2) as u8, bound as u8]);
        file
    }

    fn cuts(&mut self, file: &[u8]) {
        for length in 0..file.len() {
            self.ask(file[..length].to_vec());
        }
    }

    /// A good file with one name put in the place of another: a reserved one, or one close to it.
    fn worded(&mut self, file: &[u8]) -> Vec<u8> {
        let mut at = 1;
        for _ in 0..self.below(file[0] as usize) {
            at += 1 + file[at] as usize;
        }
        let end = at + 1 + file[at] as usize;
        let word = if self.below(3) > 0 {
            RESERVED[self.below(RESERVED.len())]
        } else {
            ["u", "g", "True", "FALSE", "tru", "trueish", "fals", "X1", "Fa", "G_", "UR"][self.below(11)]
        };
        [&file[..at], &[word.len() as u8], word.as_bytes(), &file[end..]].concat()
    }

    /// One byte changed, put in, taken out or doubled; a piece moved, cut out or repeated; bytes at the end.
    fn damaged(&mut self, mut file: Vec<u8>) -> Vec<u8> {
        for _ in 0..1 + self.below(2) * self.below(3) {
            let at = self.below(file.len() + 1).min(file.len().saturating_sub(1));
            let to = (at + 1 + self.below(12)).min(file.len());
            if file.is_empty() {
                file.push(self.random.next() as u8);
                continue;
            }
            match self.below(10) {
                0 => file[at] = self.random.next() as u8,
                1 => file[at] = file[at].wrapping_add(1),
                2 => file[at] = file[at].wrapping_sub(1),
                3 => file[at] ^= 1 << self.below(8),
                4 => file.insert(at, self.random.next() as u8),
                5 => {
                    file.remove(at);
                }
                6 => {
                    file.drain(at..to);
                }
                7 => {
                    let piece = file[at..to].to_vec();
                    file.splice(at..at, piece);
                }
                8 => file.truncate(at),
                _ => file.push(self.random.next() as u8),
            }
        }
        file
    }
}

/// The files of a run, in order, the same on every run.
fn files(count: usize) -> Vec<Question> {
    let mut files = Files {
        random: Random::new(0x5ca1_ab1e),
        list: vec![],
    };
    // The ends: nothing, one byte too many, a megabyte, and the largest good file.
    files.ask(vec![]);
    files.ask(vec![0; 1 << 20]);
    files.ask(vec![b'a'; 1 << 20]);
    let mut long = S1.to_vec();
    long.resize(1 << 20, 0);
    files.ask(long);
    files.ask(S1.to_vec());
    let largest = files.good(true);
    assert_eq!(largest.len(), LARGEST, "the largest good file");
    files.ask_whatever(largest.clone());
    files.ask([&largest[..], &[0]].concat());
    files.ask([&largest[..], &vec![7; 1 << 16]].concat());
    // Walks of any length, full tables among them.
    for _ in 0..12.min(count / 100) {
        let file = files.good(false);
        files.ask_whatever(file);
    }
    if count >= 30_000 {
        files.cuts(&S1);
        for at in 0..S1.len() {
            for byte in 0..=255 {
                let mut file = S1.to_vec();
                file[at] = byte;
                if byte != S1[at] {
                    files.ask(file);
                }
            }
            let mut file = S1.to_vec();
            file.remove(at);
            files.ask(file);
        }
        for at in 0..=S1.len() {
            for byte in 0..=255 {
                let mut file = S1.to_vec();
                file.insert(at, byte);
                files.ask(file);
            }
        }
        files.cuts(&largest);
    }
    // Then good files as they are, damaged, cut at every byte, with a reserved name, and bytes that are no file at all.
    while files.list.len() < count {
        let good = files.good(false);
        match files.below(40) {
            0 => files.cuts(&good[..good.len().min(300)]),
            1..=14 => files.ask(good),
            15 | 16 => {
                let file = files.worded(&good);
                files.cuts(&file[..file.len().min(20)]);
                files.ask(file);
            }
            17..=20 => {
                let length = files.below(64);
                let bytes = (0..length).map(|_| files.random.next() as u8).collect();
                files.ask(bytes);
            }
            21..=24 => {
                let keep = files.below(good.len());
                let mut bytes = good[..keep].to_vec();
                bytes.extend((0..files.below(40)).map(|_| files.random.next() as u8));
                files.ask(bytes);
            }
            _ => {
                for _ in 0..4 {
                    let file = files.damaged(good.clone());
                    files.ask(file);
                }
            }
        }
    }
    files.list.truncate(count);
    files.list
}

/// What the program writes, and how it ends, when it is handed this file.
fn output(program: &Path, question: &Question) -> Result<Vec<u8>, String> {
    let mut child = Command::new(program)
        .current_dir(root())
        .stdin(Stdio::piped())
        .stdout(Stdio::piped())
        .stderr(Stdio::piped())
        .spawn()
        .map_err(|error| format!("can't be started: {error}"))?;
    let mut stdin = child.stdin.take().unwrap();
    let fed = if question.pieces == 0 {
        stdin.write_all(&question.file)
    } else {
        question.file.chunks(question.pieces).try_for_each(|piece| {
            thread::sleep(Duration::from_micros(50));
            stdin.write_all(piece)
        })
    };
    drop(stdin);
    // A longer file is not read to its end.
    if let Err(error) = fed {
        if error.kind() != ErrorKind::BrokenPipe || question.file.len() <= LARGEST + 1 {
            return Err(format!("didn't read all: {error}"));
        }
    }
    let mut said = vec![];
    child
        .stdout
        .take()
        .unwrap()
        .read_to_end(&mut said)
        .map_err(|error| error.to_string())?;
    let mut complaint = String::new();
    child
        .stderr
        .take()
        .unwrap()
        .read_to_string(&mut complaint)
        .map_err(|error| error.to_string())?;
    let status = child.wait().map_err(|error| error.to_string())?;
    if !status.success() || !complaint.is_empty() {
        return Err(format!("ended with {status}, and said on standard error: {complaint}"));
    }
    Ok(said)
}

/// A file that is answered otherwise than by the judge.
struct Difference {
    file: Vec<u8>,
    judged: String,
    said: String,
}

pub fn run(count: usize) -> i32 {
    let bench = match path("bench") {
        Ok(bench) => bench,
        Err(error) => {
            eprintln!("damage: {error}");
            return 1;
        }
    };
    let started = Instant::now();
    let questions = files(count);
    let next = AtomicUsize::new(0);
    let kinds: Mutex<BTreeMap<&'static str, usize>> = Mutex::new(BTreeMap::new());
    let differences: Mutex<Vec<Difference>> = Mutex::new(vec![]);
    thread::scope(|scope| {
        for _ in 0..AT_ONCE {
            scope.spawn(|| loop {
                let at = next.fetch_add(1, Ordering::Relaxed);
                let Some(question) = questions.get(at) else { return };
                // A walk beyond its limit would hold the run up; its file is cut by a byte instead, so that every file is asked.
                let cut;
                let (question, verdict) = match judge(&question.file, ROOM, question.limit) {
                    Some(verdict) => (question, verdict),
                    None => {
                        let file = question.file[..question.file.len() - 1].to_vec();
                        let verdict = judge(&file, ROOM, question.limit).expect("a file cut short is refused");
                        cut = Question { file, ..*question };
                        (&cut, verdict)
                    }
                };
                *kinds.lock().unwrap().entry(verdict.kind()).or_default() += 1;
                let judged = verdict.output();
                let said = match output(&bench, question) {
                    Ok(said) => String::from_utf8_lossy(&said).into_owned(),
                    Err(error) => error,
                };
                if said != judged {
                    differences.lock().unwrap().push(Difference {
                        file: question.file.clone(),
                        judged,
                        said,
                    });
                }
                if (at + 1) % 10_000 == 0 {
                    let differ = differences.lock().unwrap().len();
                    eprintln!(
                        "damage: {} files, {differ} differ so far, {} s",
                        at + 1,
                        started.elapsed().as_secs()
                    );
                }
            });
        }
    });
    let differences = differences.into_inner().unwrap();
    let smallest = differences.iter().min_by_key(|difference| difference.file.len());
    if let Some(difference) = smallest {
        let bytes: Vec<String> = difference.file.iter().map(|byte| format!("{byte:02x}")).collect();
        println!(
            "the smallest: {}\n  judged {:?}\n  said   {:?}",
            bytes.join(" "),
            difference.judged,
            difference.said
        );
    }
    let kinds = kinds.into_inner().unwrap();
    let kinds: Vec<String> = kinds.iter().map(|(kind, count)| format!("{kind} {count}")).collect();
    println!("damage: {}; {} s", kinds.join(", "), started.elapsed().as_secs());
    println!("{} files, {} differ", questions.len(), differences.len());
    i32::from(!differences.is_empty())
}
