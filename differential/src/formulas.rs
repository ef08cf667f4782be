//! Random formulas: the Rust's `size`, `eval` and `Display` against what our program `formulas` says of the same nodes.
//!
//! The check answers by sessions, so a word of the Rust's is asked for bit by bit: the session from snapshot i on has to be accepted exactly where
//! bit i is set; the empty one exactly where document 02's reading accepts. A wrong mark among them has to be named.
use std::rc::Rc;

use crate::empty;
use crate::formula::tree::FormulaTree;
use crate::ltl::{trace::Trace, AtomicProposition, Constant};
use crate::oracle;
use crate::program;
use crate::query::Seq;
use crate::words::Random;

/// Operator code, left place, right place, size.
#[derive(Clone, Copy)]
pub struct Node(pub u8, pub usize, pub usize, pub usize);

pub struct Formula {
    pub listed: Vec<Node>,
    pub root: Node,
    pub tree: FormulaTree,
}

/// A formula of just that size. Children are listed before their parent; a subtree is sometimes one that is listed already.
pub fn formula(random: &mut Random, names: &[String], size: usize) -> Formula {
    let mut listed: Vec<(Node, Rc<FormulaTree>)> = Vec::new();
    let (root, tree) = grow(random, names, size, &mut listed);
    Formula {
        listed: listed.into_iter().map(|entry| entry.0).collect(),
        root,
        tree: Rc::unwrap_or_clone(tree),
    }
}

fn grow(
    random: &mut Random,
    names: &[String],
    size: usize,
    listed: &mut Vec<(Node, Rc<FormulaTree>)>,
) -> (Node, Rc<FormulaTree>) {
    if size == 1 {
        let leaf = random.below(names.len() as u64 + 2) as usize;
        return match leaf.checked_sub(names.len()) {
            None => (
                Node(16, leaf, 0, 1),
                Rc::new(FormulaTree::Atom(AtomicProposition(names[leaf].clone(), leaf))),
            ),
            Some(0) => (Node(17, 0, 0, 1), Rc::new(FormulaTree::Const(Constant::False))),
            Some(_) => (Node(18, 0, 0, 1), Rc::new(FormulaTree::Const(Constant::True))),
        };
    }
    if size == 2 || random.below(3) == 0 {
        let code = random.below(5) as u8;
        let (place, child) = put(random, names, size - 1, listed);
        let op = oracle::unary(code);
        return (
            Node(code, place, 0, size),
            Rc::new(FormulaTree::UnaryNode { op, child }),
        );
    }
    let code = 5 + random.below(6) as u8;
    let low = 1 + random.below(size as u64 - 2) as usize;
    let (one, left) = put(random, names, low, listed);
    let (other, right) = put(random, names, size - 1 - low, listed);
    let op = oracle::binary(code);
    (
        Node(code, one, other, size),
        Rc::new(FormulaTree::BinaryNode { op, left, right }),
    )
}

fn put(
    random: &mut Random,
    names: &[String],
    size: usize,
    listed: &mut Vec<(Node, Rc<FormulaTree>)>,
) -> (usize, Rc<FormulaTree>) {
    let known: Vec<usize> = (0..listed.len()).filter(|&p| listed[p].0 .3 == size).collect();
    if !known.is_empty() && random.below(2) == 0 {
        let place = known[random.below(known.len() as u64) as usize];
        return (place, listed[place].1.clone());
    }
    let entry = grow(random, names, size, listed);
    let tree = entry.1.clone();
    listed.push(entry);
    (listed.len() - 1, tree)
}

fn numbers<T: ToString>(list: impl IntoIterator<Item = T>) -> String {
    list.into_iter().map(|x| x.to_string()).collect::<Vec<_>>().join(" ")
}

fn nodes(f: &Formula) -> String {
    let fields = [
        numbers(f.listed.iter().map(|n| n.0)),
        numbers(f.listed.iter().map(|n| n.1)),
        numbers(f.listed.iter().map(|n| n.2)),
        numbers(f.listed.iter().map(|n| n.3)),
        format!("{} {} {} {}", f.root.0, f.root.1, f.root.2, f.root.3),
    ];
    fields.join("/")
}

/// Names of several lengths, all different.
pub fn names(m: usize) -> Vec<String> {
    let name = |p: usize| {
        let first = "pqXF_9aZ".chars().nth(p % 4).unwrap();
        format!("{first}{}{p}", "x_7".repeat(p % 5))
    };
    (0..m).map(name).collect()
}

/// The names section of a session file.
pub fn section(names: &[String]) -> Vec<u8> {
    let mut bytes = vec![names.len() as u8];
    for name in names {
        bytes.push(name.len() as u8);
        bytes.extend(name.bytes());
    }
    bytes
}

/// One formula, one session: the questions, each with the answer that the Rust's word, text and size ask for.
fn questions(random: &mut Random, size: usize, length: u64) -> Vec<(String, String)> {
    let m = 1 + random.below(16) as usize;
    let names = names(m);
    let f = formula(random, &names, size);
    assert_eq!(f.tree.size(), size);
    let words: Vec<u64> = (0..m).map(|_| random.word(length)).collect();
    let trace = Trace {
        atomic_propositions: words.iter().map(|&w| oracle::sequence(Seq::new(length, w))).collect(),
    };
    let matrix = f.tree.eval(&[trace]);
    assert_eq!(matrix.seqs.len(), 1);
    let word = matrix.seqs[0].values;

    let mut asked = Vec::new();
    let starts: Vec<u64> = if length == 0 { vec![0] } else { (0..length).collect() };
    for part in starts.chunks(32) {
        let good = |i: u64| match length {
            0 => u64::from(empty::accepts(&f.tree)),
            _ => word >> i & 1,
        };
        let ask = |wrong: Option<usize>| {
            let marks = part
                .iter()
                .enumerate()
                .map(|(j, &i)| if wrong == Some(j) { 1 - good(i) } else { good(i) });
            let lengths = part.iter().map(|&i| length - i);
            let rows = part.iter().flat_map(|&i| words.iter().map(move |w| w >> i));
            format!(
                "c {} {}/{}/{}/{}/{}",
                part.len(),
                m,
                numbers(marks),
                numbers(lengths),
                numbers(rows),
                nodes(&f)
            )
        };
        asked.push((ask(None), "accepted".to_string()));
        let wrong = random.below(part.len() as u64) as usize;
        asked.push((ask(Some(wrong)), format!("disagrees {wrong}")));
    }

    let text = f.tree.to_string();
    let section = numbers(section(&names));
    let more = random.below(5) as usize;
    let print = |room: usize| format!("p {section}/{}/{room}", nodes(&f));
    asked.push((
        print(text.len() + more),
        format!("text {} |{}{}|", text.len(), text, ".".repeat(more)),
    ));
    asked.push((
        print(text.len() - 1),
        format!("refused 3 |{}|", ".".repeat(text.len() - 1)),
    ));
    asked
}

/// How many answers were compared, and how many differ; the smallest differing question is printed.
pub fn compare(rounds: u64) -> Result<(usize, usize), String> {
    let mut random = Random::new(4);
    let mut asked = Vec::new();
    for _ in 0..rounds {
        for size in 1..=31 {
            let length = random.below(65);
            asked.extend(questions(&mut random, size, length));
        }
        asked.extend([0, 1, 63, 64].map(|length| questions(&mut random, 7, length)).concat());
    }
    // The program reads at most 65,536 bytes.
    let mut differ: Vec<(String, String, String)> = Vec::new();
    let mut at = 0;
    while at < asked.len() {
        let mut input = String::new();
        let from = at;
        while at < asked.len() && (input.is_empty() || input.len() + asked[at].0.len() + 1 < 60_000) {
            input += &asked[at].0;
            input += "\n";
            at += 1;
        }
        let output =
            String::from_utf8(program::output("run_formulas", input.into_bytes())?).map_err(|e| e.to_string())?;
        let answers: Vec<&str> = output.lines().collect();
        if answers.len() != at - from {
            return Err(format!(
                "formulas answered {} of {} questions",
                answers.len(),
                at - from
            ));
        }
        for (question, answer) in asked[from..at].iter().zip(answers) {
            if question.1 != answer {
                differ.push((question.0.clone(), question.1.clone(), answer.to_string()));
            }
        }
    }
    if let Some(least) = differ.iter().min_by_key(|d| d.0.len()) {
        println!("asked: {}\nthe Rust: {}\nours: {}", least.0, least.1, least.2);
    }
    Ok((asked.len(), differ.len()))
}

pub fn run(rounds: u64) -> i32 {
    match compare(rounds) {
        Ok((count, differ)) => {
            println!("formulas: compared {count} answers, {differ} differ");
            i32::from(differ > 0)
        }
        Err(error) => {
            eprintln!("differential: {error}");
            1
        }
    }
}
