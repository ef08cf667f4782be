//! `scarfpylon_read` against files written from random parts: whole, cut anywhere, with a byte too many, with too little room.
use super::judged::{Call, Judged, List};
use crate::boundary::Function;
use crate::formulas::{names, section};
use crate::search::{drawn, Input};

fn file(input: &Input) -> Vec<u8> {
    let mut bytes = section(&names(input.m));
    bytes.push(input.r as u8);
    for j in 0..input.r {
        bytes.extend([input.marks[j], input.lengths[j]]);
        for p in 0..input.m {
            bytes.extend(input.word(j, p).to_le_bytes());
        }
    }
    for codes in [&input.unary, &input.binary] {
        bytes.push(codes.len() as u8);
        bytes.extend(codes);
    }
    bytes.extend([2, input.constants, input.bound as u8]);
    bytes
}

/// The slices that are lent, each with `more` places to spare.
fn call(judged: &mut Judged, file: Vec<u8>, input: &Input, more: usize) -> Call {
    let lists = vec![
        List::Bytes(file),
        judged.bytes_out(input.r + more),
        judged.bytes_out(input.r + more),
        judged.words_out(input.r * input.m + more),
        judged.bytes_out(input.unary.len() + more),
        judged.bytes_out(input.binary.len() + more),
        judged.out(),
    ];
    Call {
        function: Function::Read,
        scalars: vec![],
        lists,
    }
}

fn wide(bytes: &[u8]) -> Vec<u64> {
    bytes.iter().map(|byte| *byte as u64).collect()
}

pub fn compare(judged: &mut Judged, rounds: u64) {
    for number in 0..31 * rounds {
        let (input, _) = drawn::draw(number);
        let bytes = file(&input);
        let more = judged.random.below(3) as usize;
        let good = call(judged, bytes.clone(), &input, more);
        let parts = [
            wide(&input.marks),
            wide(&input.lengths),
            input.words.clone(),
            wide(&input.unary),
            wide(&input.binary),
            vec![
                input.r as u64,
                input.m as u64,
                section(&names(input.m)).len() as u64,
                input.unary.len() as u64,
                input.binary.len() as u64,
                input.constants as u64,
                input.bound as u64,
            ],
        ];
        let due: Vec<(usize, List)> = (1..)
            .zip(&parts)
            .map(|(at, part)| (at, good.lists[at].with(part)))
            .collect();
        judged.hold(&good, 0, &due);

        // Room that is one too short: 3, unless the file is broken as well.
        let mut small = call(judged, bytes.clone(), &input, 0);
        let at = 1 + judged.random.below(6) as usize;
        let short = match &mut small.lists[at] {
            List::BytesOut(list) => list.pop().is_some(),
            List::WordsOut(list) if at == 6 => {
                list.truncate(7);
                true
            }
            List::WordsOut(list) => list.pop().is_some(),
            _ => false,
        };
        if short {
            judged.refuse(&small, 3);
        }
        let cut = judged.random.below(bytes.len() as u64) as usize;
        small.lists[0] = List::Bytes(bytes[..cut].to_vec());
        judged.refuse(&small, 8 + 256 * cut as u64);
        let mut long = bytes.clone();
        long.push(judged.random.next() as u8);
        let long = call(judged, long, &input, more);
        judged.refuse(&long, 8 + 256 * bytes.len() as u64);
    }
}
