//! A reader of formula texts, written from document 02's E2 and the readings of it alone. It shares nothing with the library: bytes are judged one by one by what
//! may stand at a place, and the tree is built with a stack of operators, not by descent.
use crate::judge;

/// Operator code, left place, right place, size.
pub type Node = [u64; 4];

/// A token and the place of its first byte.
enum Token {
    Prefix(u8),
    Infix(u8),
    Open,
    Close,
    Name(usize, usize),
    Constant(u8),
}

const MOST_BYTES: usize = 4096;
const MOST_SIZE: u64 = 31;
const MOST_OPEN: usize = 64;
const MOST_LETTERS: usize = 16;

fn in_word(byte: u8) -> bool {
    byte.is_ascii_alphanumeric() || byte == b'_'
}

/// The rest of a token, byte for byte: the place behind it, or of the byte that can't continue it.
fn rest(text: &[u8], mut at: usize, bytes: &[u8]) -> Result<usize, usize> {
    for byte in bytes {
        if text.get(at) != Some(byte) {
            return Err(at);
        }
        at += 1;
    }
    Ok(at)
}

/// The tokens of a formula's text and how many brackets are open at most; or the offset of 11.
fn tokens(text: &[u8]) -> Result<(Vec<Token>, usize), usize> {
    let mut found = vec![];
    let (mut at, mut open, mut most, mut operand_due) = (0, 0, 0, true);
    while at < text.len() {
        let from = at;
        match text[at] {
            b' ' => at += 1,
            // A word where an operand is due: a prefix operator, a constant or a name. `U` and `R` could still become a name, but end here.
            byte if byte.is_ascii_alphabetic() && operand_due => {
                while at < text.len() && in_word(text[at]) {
                    if at - from == MOST_LETTERS {
                        return Err(at);
                    }
                    at += 1;
                }
                let token = match &text[from..at] {
                    b"U" | b"R" => return Err(at),
                    b"F" => Token::Prefix(3),
                    b"G" => Token::Prefix(4),
                    b"X" if text.get(at) == Some(&b'[') => {
                        at = rest(text, at + 1, b"!]")?;
                        Token::Prefix(2)
                    }
                    b"X" => Token::Prefix(1),
                    b"false" => Token::Constant(17),
                    b"true" => Token::Constant(18),
                    _ => Token::Name(from, at),
                };
                operand_due = matches!(token, Token::Prefix(_));
                found.push(token);
            }
            // The only words behind an operand, and they end after one letter.
            byte @ (b'U' | b'R') if !operand_due => {
                at += 1;
                if at < text.len() && in_word(text[at]) {
                    return Err(at);
                }
                found.push(Token::Infix(if byte == b'U' { 7 } else { 8 }));
                operand_due = true;
            }
            b'!' if operand_due => {
                at += 1;
                found.push(Token::Prefix(0));
            }
            b'(' if operand_due => {
                at += 1;
                open += 1;
                most = most.max(open);
                found.push(Token::Open);
            }
            b')' if !operand_due && open > 0 => {
                at += 1;
                open -= 1;
                found.push(Token::Close);
            }
            byte @ (b'|' | b'&') if !operand_due => {
                at += 1;
                found.push(Token::Infix(if byte == b'|' { 5 } else { 6 }));
                operand_due = true;
            }
            b'-' if !operand_due => {
                at = rest(text, at + 1, b">")?;
                found.push(Token::Infix(9));
                operand_due = true;
            }
            b'<' if !operand_due => {
                at = rest(text, at + 1, b"->")?;
                found.push(Token::Infix(10));
                operand_due = true;
            }
            _ => return Err(at),
        }
    }
    if operand_due || open > 0 {
        return Err(text.len());
    }
    Ok((found, most))
}

/// How tightly an infix operator binds, and whether it associates to the right.
fn binding(code: u8) -> (u8, bool) {
    match code {
        7 | 8 => (3, true),
        6 => (2, false),
        5 => (1, false),
        _ => (0, true),
    }
}

enum Waiting {
    Prefix(u8),
    Infix(u8),
    Open,
}

/// The nodes, children before their parent; each operand is known by its place and size.
#[derive(Default)]
struct Building {
    nodes: Vec<Node>,
    operands: Vec<(u64, u64)>,
    waiting: Vec<Waiting>,
}

impl Building {
    fn put(&mut self, code: u8, left: u64, right: u64, size: u64) {
        self.operands.push((self.nodes.len() as u64, size));
        self.nodes.push([code as u64, left, right, size]);
    }

    /// Applies the operators that wait and bind before what comes, down to an opening bracket.
    fn apply_while(&mut self, binds: impl Fn(&Waiting) -> bool) {
        while self.waiting.last().is_some_and(&binds) {
            match self.waiting.pop().unwrap() {
                Waiting::Prefix(code) => {
                    let (place, size) = self.operands.pop().unwrap();
                    self.put(code, place, 0, 1 + size);
                }
                Waiting::Infix(code) => {
                    let (right, more) = self.operands.pop().unwrap();
                    let (left, size) = self.operands.pop().unwrap();
                    self.put(code, left, right, 1 + size + more);
                }
                Waiting::Open => unreachable!(),
            }
        }
    }

    fn take(&mut self, token: &Token, number: impl Fn(usize, usize) -> u64) {
        match *token {
            Token::Name(from, to) => self.put(16, number(from, to), 0, 1),
            Token::Constant(code) => self.put(code, 0, 0, 1),
            Token::Prefix(code) => self.waiting.push(Waiting::Prefix(code)),
            Token::Open => self.waiting.push(Waiting::Open),
            Token::Close => {
                self.apply_while(|w| !matches!(w, Waiting::Open));
                self.waiting.pop();
            }
            Token::Infix(code) => {
                let (level, to_the_right) = binding(code);
                self.apply_while(|waiting| match *waiting {
                    Waiting::Prefix(_) => true,
                    Waiting::Infix(other) => binding(other).0 > level || binding(other).0 == level && !to_the_right,
                    Waiting::Open => false,
                });
                self.waiting.push(Waiting::Infix(code));
            }
        }
    }
}

/// The nodes, or the word that has to be returned: "Refusals, in order: the names' 8; 12 ..; 11 ..; 13 ..; 12 ..; 3 ..".
pub fn parse(section: &[u8], text: &[u8], room: usize, out: usize) -> Result<Vec<Node>, u64> {
    let names = judge::names(section).map_err(|offset| 8 + 256 * offset as u64)?;
    if text.len() > MOST_BYTES {
        return Err(12);
    }
    let (tokens, open) = tokens(text).map_err(|offset| 11 + 256 * offset as u64)?;
    let number = |from: usize, to: usize| names.iter().position(|name| name.as_bytes() == &text[from..to]);
    for token in &tokens {
        if let Token::Name(from, to) = *token {
            if number(from, to).is_none() {
                return Err(13 + 256 * from as u64);
            }
        }
    }
    let mut building = Building::default();
    for token in &tokens {
        building.take(token, |from, to| number(from, to).unwrap() as u64);
    }
    building.apply_while(|_| true);
    let size = building.operands[0].1;
    if size > MOST_SIZE || open > MOST_OPEN {
        return Err(12);
    }
    if (room as u64) < size || out < 8 {
        return Err(3);
    }
    Ok(building.nodes)
}
