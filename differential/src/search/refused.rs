//! Refusals of a search. The Rust has none, so the numbers, and which comes first, are the rows of document 01's table.
use super::drawn;
use super::input::Input;
use super::lent::Lens;
use crate::query::Seq;
use crate::words::Random;

/// Document 01's row for an input and what it is lent, in the order of its numbers; 0 where none is given.
pub fn number(input: &Input, lens: &Lens) -> u64 {
    let Input { r, m, bound, room, .. } = *input;
    if !(1..=32).contains(&r) || !(1..=16).contains(&m) {
        return 1;
    }
    if !(1..=31).contains(&bound) || !(1..=4096).contains(&room) || input.constants > 1 {
        return 2;
    }
    let nodes = [lens.codes, lens.lefts, lens.rights, lens.sizes];
    let short = input.marks.len() < r
        || input.lengths.len() < r
        || input.words.len() < m * r
        || nodes.iter().any(|count| *count < room)
        || lens.matrices < room * r
        || lens.out < 16;
    if short {
        return 3;
    }
    if input.lengths[..r].iter().any(|n| *n > 64) {
        return 4;
    }
    let sound = |j: usize, p: usize| Seq::new(input.lengths[j] as u64, input.word(j, p)).is_well_formed();
    if !(0..r).all(|j| (0..m).all(|p| sound(j, p))) {
        return 5;
    }
    if input.marks[..r].iter().any(|mark| *mark > 1) {
        return 6;
    }
    let group = |codes: &[u8], least: u8, most: u8| {
        let inside = codes.iter().all(|code| (least..=most).contains(code));
        let once = (0..codes.len()).all(|i| !codes[..i].contains(&codes[i]));
        inside && once
    };
    if !group(&input.unary, 0, 4) || !group(&input.binary, 5, 10) {
        return 7;
    }
    0
}

/// Slices longer than asked, with anything in the rest.
pub fn lengthen(random: &mut Random, input: &mut Input, lens: &mut Lens) {
    for _ in 0..random.below(3) {
        input.marks.push(random.next() as u8);
        input.lengths.push(random.next() as u8);
        input.words.push(random.next());
    }
    let counts = [
        &mut lens.codes,
        &mut lens.lefts,
        &mut lens.rights,
        &mut lens.sizes,
        &mut lens.matrices,
        &mut lens.out,
    ];
    for count in counts {
        *count += random.below(4) as usize;
    }
}

/// A number that is not in 1 to `most`: one beside it, or a far one.
fn outside(random: &mut Random, most: usize) -> usize {
    match random.below(4) {
        0 => 0,
        1 => most + 1,
        2 => most + 1 + random.below(1 << 20) as usize,
        _ => usize::MAX - random.below(3) as usize,
    }
}

/// A number of places below what is asked, most often just below.
fn below(random: &mut Random, asked: usize) -> usize {
    if random.below(2) == 0 {
        asked.saturating_sub(1)
    } else {
        random.below(asked.max(1) as u64) as usize
    }
}

fn code_outside(random: &mut Random, least: u8, most: u8) -> u8 {
    loop {
        let code = if random.below(2) == 0 {
            random.below(20)
        } else {
            random.below(256)
        } as u8;
        if !(least..=most).contains(&code) {
            return code;
        }
    }
}

/// Breaks one thing of an input that had r sessions and m propositions. What is broken is judged by `number` afterwards, since an earlier fault may have taken its place away.
fn break_one(random: &mut Random, input: &mut Input, lens: &mut Lens, r: usize, m: usize) {
    let session = random.below(input.lengths.len().max(1) as u64) as usize;
    match random.below(20) {
        0 => input.r = outside(random, 32),
        1 => input.m = outside(random, 16),
        2 => input.bound = outside(random, 31),
        3 => input.room = outside(random, 4096),
        4 => input.constants = 2 + random.below(254) as u8,
        5 => input.marks.truncate(below(random, r)),
        6 => input.lengths.truncate(below(random, r)),
        7 => {
            let asked = input.words.len();
            input.words.truncate(below(random, asked));
        }
        8 => {
            let count = [&mut lens.codes, &mut lens.lefts, &mut lens.rights, &mut lens.sizes]
                .into_iter()
                .nth(random.below(4) as usize);
            let count = count.unwrap();
            *count = below(random, *count);
        }
        9 => lens.matrices = below(random, lens.matrices),
        10 => lens.out = below(random, 16),
        11 | 12 => {
            if let Some(length) = input.lengths.get_mut(session) {
                *length = if random.below(2) == 0 {
                    65
                } else {
                    65 + random.below(191) as u8
                };
            }
        }
        13 | 14 => {
            let at = random.below(input.words.len().max(1) as u64) as usize;
            let length = input.lengths.get(at / m).copied().unwrap_or(0).min(63);
            if let Some(word) = input.words.get_mut(at) {
                *word |= 1 << (length as u64 + random.below(64 - length as u64));
            }
        }
        15 | 16 => {
            let at = random.below(input.marks.len().max(1) as u64) as usize;
            if let Some(mark) = input.marks.get_mut(at) {
                *mark = if random.below(2) == 0 {
                    2
                } else {
                    2 + random.below(254) as u8
                };
            }
        }
        _ => {
            let unary = random.below(2) == 0;
            let (codes, least, most) = if unary {
                (&mut input.unary, 0, 4)
            } else {
                (&mut input.binary, 5, 10)
            };
            let code = if codes.is_empty() || random.below(2) == 0 {
                code_outside(random, least, most)
            } else {
                codes[random.below(codes.len() as u64) as usize]
            };
            codes.insert(random.below(codes.len() as u64 + 1) as usize, code);
        }
    }
}

/// A random input with one to three things broken, and what it is lent.
pub fn draw(number: u64) -> (Input, Lens) {
    let mut random = Random::new(!number.wrapping_mul(0x9e6c_63d0_876a_3f6b));
    let random = &mut random;
    let (mut input, _) = drawn::draw(number);
    // The table is never reached, so a large one is not asked for.
    input.room = 1 + input.room % 64;
    let mut lens = Lens::asked(&input);
    if random.below(3) == 0 {
        lengthen(random, &mut input, &mut lens);
    }
    let (r, m) = (input.r, input.m);
    let faults = if random.below(2) == 0 { 1 } else { 1 + random.below(3) };
    for _ in 0..faults {
        break_one(random, &mut input, &mut lens, r, m);
    }
    (input, lens)
}
