//! `scarfpylon_print` against the Rust's `Display`, with room to spare and with too little; broken names sections and node lists.
use super::judged::{Call, Judged, List};
use super::separating::{broken, listed, root};
use crate::boundary::Function;
use crate::formulas::{formula, names, section, Formula};

fn call(names: Vec<u8>, f: &Formula, text: List, out: List) -> Call {
    let mut lists = vec![List::Bytes(names)];
    lists.extend(listed(&f.listed));
    lists.push(text);
    lists.push(out);
    Call {
        function: Function::Print,
        scalars: root(&f.root).to_vec(),
        lists,
    }
}

pub fn compare(judged: &mut Judged, rounds: u64) {
    for _ in 0..rounds {
        for size in 1..=31 {
            let m = 1 + judged.random.below(16) as usize;
            let names = names(m);
            let section = section(&names);
            let f = formula(&mut judged.random, &names, size);
            let text: Vec<u64> = f.tree.to_string().bytes().map(u64::from).collect();

            let more = judged.random.below(4) as usize;
            let room = judged.bytes_out(text.len() + more);
            let out = judged.out();
            let (written, count) = (room.with(&text), out.with(&[text.len() as u64]));
            let good = call(section.clone(), &f, room, out);
            judged.hold(&good, 0, &[(5, written), (6, count)]);

            let less = 1 + judged.random.below(text.len() as u64) as usize;
            let (room, out) = (judged.bytes_out(text.len() - less), judged.out());
            let mut small = call(section.clone(), &f, room, out);
            judged.refuse(&small, 3);

            // 8 comes before 9, and 9 before 3. A section cut off offends at its end.
            let faulty = broken(judged, &f, m);
            small.lists[1..5].clone_from_slice(&listed(&faulty.listed));
            small.scalars = root(&faulty.root).to_vec();
            judged.refuse(&small, 9);
            let cut = judged.random.below(section.len() as u64) as usize;
            small.lists[0] = List::Bytes(section[..cut].to_vec());
            judged.refuse(&small, 8 + 256 * cut as u64);

            let mut tight = good;
            tight.lists[6] = judged.words_out(7);
            judged.refuse(&tight, 3);
        }
    }
}
