//! Random formulas as an analyst might type them: any spaces, brackets where they are needed and where they aren't; and texts damaged.
use super::prose::Node;
use crate::words::Random;

pub enum Tree {
    Leaf(u8, usize),
    Unary(u8, Box<Tree>),
    Binary(u8, Box<Tree>, Box<Tree>),
}

const TOKENS: [&str; 11] = ["!", "X", "X[!]", "F", "G", "|", "&", "U", "R", "->", "<->"];

/// A tree of just that size over so many names.
pub fn tree(random: &mut Random, names: usize, size: usize) -> Tree {
    if size == 1 {
        let leaf = random.below(names as u64 + 1) as usize;
        return match leaf.checked_sub(names) {
            None => Tree::Leaf(16, leaf),
            Some(_) => Tree::Leaf(17 + random.below(2) as u8, 0),
        };
    }
    if size == 2 || random.below(3) == 0 {
        return Tree::Unary(random.below(5) as u8, Box::new(tree(random, names, size - 1)));
    }
    let left = 1 + random.below(size as u64 - 2) as usize;
    Tree::Binary(
        5 + random.below(6) as u8,
        Box::new(tree(random, names, left)),
        Box::new(tree(random, names, size - 1 - left)),
    )
}

/// Its nodes: left child, right child, parent. Answers the root's place and the size.
pub fn nodes(tree: &Tree, to: &mut Vec<Node>) -> (u64, u64) {
    let node = match tree {
        Tree::Leaf(code, name) => [*code as u64, *name as u64, 0, 1],
        Tree::Unary(code, child) => {
            let (place, size) = nodes(child, to);
            [*code as u64, place, 0, 1 + size]
        }
        Tree::Binary(code, left, right) => {
            let (left, size) = nodes(left, to);
            let (right, more) = nodes(right, to);
            [*code as u64, left, right, 1 + size + more]
        }
    };
    to.push(node);
    (to.len() as u64 - 1, node[3])
}

/// What stands to the left and right of an infix operator without brackets, by how tightly it binds.
fn levels(code: u8) -> (u8, u8, u8) {
    match code {
        7 | 8 => (3, 4, 3),
        6 => (2, 2, 3),
        5 => (1, 1, 2),
        _ => (0, 1, 0),
    }
}

pub struct Typing<'a> {
    pub random: &'a mut Random,
    pub names: &'a [String],
    pub text: Vec<u8>,
    /// One in so many times a pair of brackets or some spaces that aren't needed.
    pub spare: u64,
}

impl Typing<'_> {
    fn token(&mut self, token: &str) {
        let word = |byte: &u8| byte.is_ascii_alphanumeric() || *byte == b'_';
        if self.text.last().is_some_and(word) && token.bytes().next().as_ref().is_some_and(word) {
            self.text.push(b' ');
        }
        self.spaces();
        self.text.extend(token.bytes());
        self.spaces();
    }

    fn spaces(&mut self) {
        while self.random.below(self.spare) == 0 {
            self.text.push(b' ');
        }
    }

    /// Types a formula where one of this level may stand.
    pub fn write(&mut self, tree: &Tree, level: u8) {
        let own = match tree {
            Tree::Binary(code, ..) => levels(*code).0,
            _ => 4,
        };
        if own < level || self.random.below(self.spare) == 0 {
            self.token("(");
            self.write(tree, 0);
            self.token(")");
            return;
        }
        match tree {
            Tree::Leaf(16, name) => {
                let name = self.names[*name].clone();
                self.token(&name);
            }
            Tree::Leaf(code, _) => self.token(if *code == 17 { "false" } else { "true" }),
            Tree::Unary(code, child) => {
                self.token(TOKENS[*code as usize]);
                self.write(child, 4);
            }
            Tree::Binary(code, left, right) => {
                let (_, low, high) = levels(*code);
                self.write(left, low);
                self.token(TOKENS[*code as usize]);
                self.write(right, high);
            }
        }
    }
}

/// A few bytes changed, put in, taken out or exchanged, or the text cut.
pub fn damage(random: &mut Random, text: &mut Vec<u8>, telling: &[u8]) {
    for _ in 0..1 + random.below(3) {
        let at = random.below(text.len() as u64 + 1) as usize;
        let byte = match random.below(8) {
            0 => random.next() as u8,
            _ => telling[random.below(telling.len() as u64) as usize],
        };
        match random.below(5) {
            0 if at < text.len() => text[at] = byte,
            1 => text.insert(at, byte),
            2 if at < text.len() => {
                text.remove(at);
            }
            3 if at + 1 < text.len() => text.swap(at, at + 1),
            4 if random.below(4) == 0 => text.truncate(at),
            _ => {}
        }
    }
}
