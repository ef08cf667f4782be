//! A stored sample of searches with the Rust's answers: lines that our program `run_searches` reads, and what it has to print, so that the gate runs them
//! with no Rust at hand.
use super::drawn;
use super::due;
use super::input::{Ending, Input};
use super::lent::Lent;

/// What a line lends to its search: so many places, and so many words, all of them 9.
const PLACES: usize = 12;
const WORDS: usize = 48;
/// Searches of each ending.
const EACH: usize = 4;

/// Inputs of several kinds that fit, the first so many of each ending.
fn inputs() -> Vec<Input> {
    let mut chosen = vec![];
    let mut counts = [0; 3];
    for number in 0.. {
        let (input, _) = drawn::draw(number);
        let longest = input.lengths.iter().max().copied().unwrap_or(0);
        let fits = input.room <= PLACES && input.room * input.r <= WORDS && input.r * input.m <= 12 && longest <= 8;
        if !fits || input.unary.len() + input.binary.len() < 2 {
            continue;
        }
        let Ok(outcome) = due(&input, 1000) else {
            continue;
        };
        // Walks that have come somewhere.
        if outcome.tried < 19 || outcome.kept() < 5 {
            continue;
        }
        let kind = match outcome.ending {
            Ending::Found(root) if root.size < 3 => continue,
            Ending::Found(_) => 0,
            Ending::None => 1,
            Ending::Full(_) => 2,
        };
        if counts[kind] < EACH {
            counts[kind] += 1;
            chosen.push(input);
        }
        if counts == [EACH; 3] {
            break;
        }
    }
    chosen
}

/// The lines that the program reads, as its src/main.rt describes them.
pub fn questions() -> String {
    fn list<T: ToString>(numbers: &[T]) -> String {
        let numbers: Vec<String> = numbers.iter().map(T::to_string).collect();
        numbers.join(" ")
    }
    let mut text = String::new();
    for (number, input) in inputs().iter().enumerate() {
        let head = [input.r, input.m, input.bound, input.room, input.constants as usize];
        let fields = [
            format!("sample {number}"),
            list(&head),
            list(&input.marks),
            list(&input.lengths),
            list(&input.words),
            list(&input.unary),
            list(&input.binary),
        ];
        let lent = format!("9:{PLACES}/9:{PLACES}/9:{PLACES}/9:{PLACES}/9:{WORDS}");
        text += &format!("{}/{lent}/said\n", fields.join("/"));
    }
    text
}

/// What the program has to print for them.
pub fn lines() -> String {
    fn list<T: ToString>(numbers: &[T]) -> String {
        let numbers: Vec<String> = numbers.iter().map(T::to_string).collect();
        format!(" | {}", numbers.join(" "))
    }
    let mut text = String::new();
    for (number, input) in inputs().iter().enumerate() {
        let outcome = due(input, 1000).unwrap();
        let mut lent = Lent {
            codes: vec![9; PLACES],
            lefts: vec![9; PLACES],
            rights: vec![9; PLACES],
            sizes: vec![9; PLACES],
            matrices: vec![9; WORDS],
            out: vec![0; 16],
        };
        lent.write(&outcome);
        let (tried, kept, dropped) = (outcome.tried, outcome.kept(), outcome.dropped);
        let counts = format!("tried {tried} kept {kept} dropped {dropped}");
        let answer = match outcome.ending {
            Ending::Found(root) => format!(
                "found size {} {counts} root {} {} {} {}",
                root.size, root.code, root.left, root.right, root.size
            ),
            Ending::None => format!("none {counts}"),
            Ending::Full(size) => format!("full size {size} {counts}"),
        };
        text += &format!("sample {number}: {answer}");
        text += &(list(&lent.codes) + &list(&lent.lefts) + &list(&lent.rights) + &list(&lent.sizes));
        text += &(list(&lent.matrices) + "\n");
    }
    text
}
