//! What the bench has to write for a file: a reader, a walk and a printer of their own, written from the documents' prose. Nothing here is
//! fast or shared with the library: a row is a list of truth values, a formula a tree, and every operator its sentence position by position.
use std::rc::Rc;

/// The room that the program searches with.
pub const ROOM: usize = 200;

/// The names that document 02's E1 refuses.
pub const RESERVED: [&str; 7] = ["U", "R", "X", "F", "G", "true", "false"];

const TOKENS: [&str; 11] = ["!", "X", "X[!]", "F", "G", "|", "&", "U", "R", "->", "<->"];

/// The parts of a good file.
pub struct Parts {
    pub names: Vec<String>,
    pub sessions: Vec<Session>,
    pub unary: Vec<u8>,
    pub binary: Vec<u8>,
    pub constants: bool,
    pub bound: usize,
}

pub struct Session {
    pub mark: bool,
    /// One row of truth values a proposition, all as long as the session.
    pub rows: Vec<Vec<bool>>,
}

impl Session {
    fn length(&self) -> usize {
        self.rows[0].len()
    }

    /// A proposition's row; at an empty session it isn't accepted.
    fn places(&self, number: usize) -> Vec<bool> {
        if self.length() == 0 {
            return vec![false];
        }
        self.rows[number].clone()
    }
}

/// Goes through a file from its first byte on. An error is the offset of the first offending byte.
struct Reader<'a> {
    file: &'a [u8],
    at: usize,
}

impl Reader<'_> {
    /// The next byte; where the file ends early the offset is its length.
    fn byte(&mut self) -> Result<u8, usize> {
        let byte = *self.file.get(self.at).ok_or(self.file.len())?;
        self.at += 1;
        Ok(byte)
    }

    /// The next byte, which offends unless it is good.
    fn good(&mut self, good: impl Fn(u8) -> bool) -> Result<u8, usize> {
        let at = self.at;
        let byte = self.byte()?;
        if good(byte) {
            Ok(byte)
        } else {
            Err(at)
        }
    }

    /// Length byte 1-16, then letters, digits or `_`, a letter first, no name twice and no reserved one, both at the length byte.
    fn name(&mut self, before: &[String]) -> Result<String, usize> {
        let start = self.at;
        let length = self.good(|byte| (1..=16).contains(&byte))?;
        let mut name = String::new();
        for place in 0..length {
            let byte =
                self.good(|byte| byte.is_ascii_alphabetic() || place > 0 && (byte.is_ascii_digit() || byte == b'_'))?;
            name.push(byte as char);
        }
        if before.contains(&name) || RESERVED.contains(&name.as_str()) {
            return Err(start);
        }
        Ok(name)
    }

    fn names(&mut self) -> Result<Vec<String>, usize> {
        let mut names = vec![];
        for _ in 0..self.good(|m| (1..=16).contains(&m))? {
            let name = self.name(&names)?;
            names.push(name);
        }
        Ok(names)
    }

    /// Eight bytes, low byte first; a bit at or above the length offends at the word's first byte, once the word is whole.
    fn word(&mut self, length: usize) -> Result<Vec<bool>, usize> {
        let start = self.at;
        let mut bits = vec![];
        for _ in 0..8 {
            let byte = self.byte()?;
            bits.extend((0..8).map(|bit| byte >> bit & 1 == 1));
        }
        if bits[length..].contains(&true) {
            return Err(start);
        }
        bits.truncate(length);
        Ok(bits)
    }

    /// A count, which is never refused itself, and as many codes of the group, none twice.
    fn codes(&mut self, group: std::ops::RangeInclusive<u8>) -> Result<Vec<u8>, usize> {
        let mut codes = vec![];
        for _ in 0..self.byte()? {
            let code = self.good(|code| group.contains(&code) && !codes.contains(&code))?;
            codes.push(code);
        }
        Ok(codes)
    }
}

/// The names of a names section with nothing after it, or the offset at which a bad one offends.
pub fn names(section: &[u8]) -> Result<Vec<String>, usize> {
    let mut reader = Reader { file: section, at: 0 };
    let names = reader.names()?;
    if reader.at < section.len() {
        return Err(reader.at);
    }
    Ok(names)
}

/// The parts of a good file, or the offset at which a bad one offends.
pub fn read(file: &[u8]) -> Result<Parts, usize> {
    let mut reader = Reader { file, at: 0 };
    let names = reader.names()?;
    let mut sessions = vec![];
    for _ in 0..reader.good(|r| (1..=32).contains(&r))? {
        let mark = reader.good(|mark| mark <= 1)? == 1;
        let length = reader.good(|length| length <= 64)? as usize;
        let mut rows = vec![];
        for _ in &names {
            rows.push(reader.word(length)?);
        }
        sessions.push(Session { mark, rows });
    }
    let unary = reader.codes(0..=4)?;
    let binary = reader.codes(5..=10)?;
    reader.good(|count| count == 2)?;
    let constants = reader.good(|mark| mark <= 1)? == 1;
    let bound = reader.good(|bound| (1..=31).contains(&bound))? as usize;
    if reader.at < file.len() {
        return Err(reader.at);
    }
    Ok(Parts {
        names,
        sessions,
        unary,
        binary,
        constants,
        bound,
    })
}

enum Tree {
    Proposition(usize),
    Constant(bool),
    Unary(u8, Rc<Tree>),
    Binary(u8, Rc<Tree>, Rc<Tree>),
}

impl Tree {
    /// `op (child)` and `(left) op (right)`, leaves by name, `true`, `false`.
    fn text(&self, names: &[String]) -> String {
        match self {
            Tree::Proposition(number) => names[*number].clone(),
            Tree::Constant(value) => value.to_string(),
            Tree::Unary(code, child) => format!("{} ({})", TOKENS[*code as usize], child.text(names)),
            Tree::Binary(code, left, right) => {
                format!(
                    "({}) {} ({})",
                    left.text(names),
                    TOKENS[*code as usize],
                    right.text(names)
                )
            }
        }
    }
}

/// One row of truth values a session: one for each snapshot, and one of an empty session, its acceptance (document 02, E4).
type Matrix = Vec<Vec<bool>>;

fn unary(code: u8, n: usize, f: &[bool]) -> Vec<bool> {
    let holds = |i: usize| match code {
        0 => !f[i],
        1 => i + 1 >= n || f[i + 1],
        2 => i + 1 < n && f[i + 1],
        3 => (i..n).any(|j| f[j]),
        _ => (i..n).all(|j| f[j]),
    };
    (0..n.max(1)).map(holds).collect()
}

fn binary(code: u8, n: usize, f: &[bool], g: &[bool]) -> Vec<bool> {
    let holds = |i: usize| match code {
        5 => f[i] || g[i],
        6 => f[i] && g[i],
        7 => (i..n).any(|j| g[j] && (i..j).all(|k| f[k])),
        8 => (i..n).all(|j| g[j] || (i..j).any(|k| f[k])),
        9 => !f[i] || g[i],
        _ => f[i] == g[i],
    };
    (0..n.max(1)).map(holds).collect()
}

/// What the bench answers.
pub enum Answer {
    Found {
        size: usize,
        tried: u64,
        kept: usize,
        dropped: u64,
        text: String,
    },
    None {
        tried: u64,
        kept: usize,
        dropped: u64,
    },
    Full {
        size: usize,
        tried: u64,
        kept: usize,
        dropped: u64,
    },
    Refused {
        at: usize,
    },
}

impl Answer {
    /// The first word of the line, by which the answers are counted.
    pub fn kind(&self) -> &'static str {
        match self {
            Answer::Found { .. } => "found",
            Answer::None { .. } => "none",
            Answer::Full { .. } => "full",
            Answer::Refused { .. } => "refused",
        }
    }

    /// The whole output. Every line ends in a newline.
    pub fn output(&self) -> String {
        match self {
            Answer::Found {
                size,
                tried,
                kept,
                dropped,
                text,
            } => format!("found size {size} tried {tried} kept {kept} dropped {dropped}\n{text}\n"),
            Answer::None { tried, kept, dropped } => format!("none tried {tried} kept {kept} dropped {dropped}\n"),
            Answer::Full {
                size,
                tried,
                kept,
                dropped,
            } => format!("full size {size} tried {tried} kept {kept} dropped {dropped}\n"),
            Answer::Refused { at } => format!("refused 8 at {at}\n"),
        }
    }
}

/// A formula that the walk has kept.
struct Kept {
    tree: Rc<Tree>,
    matrix: Matrix,
    size: usize,
}

struct Walk<'a> {
    parts: &'a Parts,
    room: usize,
    limit: u64,
    kept: Vec<Kept>,
    tried: u64,
    dropped: u64,
    cost: u64,
}

/// Why a walk ends before its last candidate.
enum End {
    Answered(Answer),
    TooLong,
}

impl Walk<'_> {
    fn consider(&mut self, size: usize, tree: Tree, matrix: Matrix) -> Result<(), End> {
        self.tried += 1;
        self.cost += matrix.len() as u64;
        let sessions = &self.parts.sessions;
        let accepts = |j: usize| matrix[j][0];
        if (0..sessions.len()).all(|j| accepts(j) == sessions[j].mark) {
            let text = tree.text(&self.parts.names);
            return Err(End::Answered(Answer::Found {
                size,
                tried: self.tried,
                kept: self.kept.len(),
                dropped: self.dropped,
                text,
            }));
        }
        if self.cost > self.limit {
            return Err(End::TooLong);
        }
        if self.kept.iter().any(|kept| kept.matrix == matrix) {
            self.dropped += 1;
            return Ok(());
        }
        if self.kept.len() == self.room {
            return Err(End::Answered(Answer::Full {
                size,
                tried: self.tried,
                kept: self.room,
                dropped: self.dropped,
            }));
        }
        self.kept.push(Kept {
            tree: Rc::new(tree),
            matrix,
            size,
        });
        Ok(())
    }

    fn of_size(&self, size: usize) -> Vec<usize> {
        (0..self.kept.len())
            .filter(|&place| self.kept[place].size == size)
            .collect()
    }

    fn leaves(&mut self) -> Result<(), End> {
        for number in 0..self.parts.names.len() {
            let matrix = self
                .parts
                .sessions
                .iter()
                .map(|session| session.places(number))
                .collect();
            self.consider(1, Tree::Proposition(number), matrix)?;
        }
        if self.parts.constants {
            for value in [false, true] {
                let matrix = self
                    .parts
                    .sessions
                    .iter()
                    .map(|session| vec![value; session.length().max(1)])
                    .collect();
                self.consider(1, Tree::Constant(value), matrix)?;
            }
        }
        Ok(())
    }

    fn pair(&mut self, size: usize, code: u8, left: usize, right: usize) -> Result<(), End> {
        let (l, q) = (&self.kept[left], &self.kept[right]);
        let matrix = l
            .matrix
            .iter()
            .zip(&q.matrix)
            .zip(&self.parts.sessions)
            .map(|((f, g), session)| binary(code, session.length(), f, g))
            .collect();
        let tree = Tree::Binary(code, l.tree.clone(), q.tree.clone());
        self.consider(size, tree, matrix)
    }

    fn layer(&mut self, size: usize) -> Result<(), End> {
        let parts = self.parts;
        for child in self.of_size(size - 1) {
            for &code in &parts.unary {
                let rows = self.kept[child].matrix.iter().zip(&parts.sessions);
                let matrix = rows.map(|(f, session)| unary(code, session.length(), f)).collect();
                let tree = Tree::Unary(code, self.kept[child].tree.clone());
                self.consider(size, tree, matrix)?;
            }
        }
        for i in 1..size.div_ceil(2) {
            for l in self.of_size(i) {
                for q in self.of_size(size - 1 - i) {
                    for &code in &parts.binary {
                        self.pair(size, code, l, q)?;
                        if ![5, 6, 10].contains(&code) {
                            self.pair(size, code, q, l)?;
                        }
                    }
                }
            }
        }
        Ok(())
    }

    fn all(&mut self) -> Result<(), End> {
        self.leaves()?;
        for size in 2..=self.parts.bound {
            self.layer(size)?;
        }
        Ok(())
    }
}

/// What the bench has to answer for this file; nothing where the walk would cost more than the limit. One unit is one operator on one session.
pub fn judge(file: &[u8], room: usize, limit: u64) -> Option<Answer> {
    let parts = match read(file) {
        Ok(parts) => parts,
        Err(at) => return Some(Answer::Refused { at }),
    };
    let mut walk = Walk {
        parts: &parts,
        room,
        limit,
        kept: vec![],
        tried: 0,
        dropped: 0,
        cost: 0,
    };
    match walk.all() {
        Ok(()) => Some(Answer::None {
            tried: walk.tried,
            kept: walk.kept.len(),
            dropped: walk.dropped,
        }),
        Err(End::Answered(answer)) => Some(answer),
        Err(End::TooLong) => None,
    }
}
