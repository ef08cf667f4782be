//! `scarfpylon_parse` against a reader written from document 02's prose (`prose`): every short text over the telling bytes, every short run of
//! tokens, random formulas as they might be typed, damaged ones, texts at the limits; and what `scarfpylon_print` writes, read back and printed again.
mod prose;
mod typed;

use crate::boundary::{self, Boundary, Function, Slice, Way};
use crate::formulas::{formula, section};
use crate::words::Random;
use prose::Node;
use typed::{damage, nodes, tree, Typing};

/// The bytes by which short texts differ: names, each letter that begins a token or could continue one, signs, a space, and bytes that are never good.
const TELLING: &[u8] = b"pqURXFGtrue_9![]()&|-<> \t\0\x80";
const TOKENS: [&str; 13] = ["p", "q", "!", "X[!]", "F", "U", "R", "&", "|", "->", "<->", "(", ")"];

/// How much is compared.
pub struct Extent {
    /// Texts of up to so many bytes, and runs of up to so many tokens.
    bytes: u32,
    tokens: u32,
    random: u64,
}

impl Extent {
    pub fn full(way: Way, random: u64) -> Self {
        match way {
            Way::Linked => Extent {
                bytes: 4,
                tokens: 6,
                random,
            },
            Way::Served => Extent {
                bytes: 1,
                tokens: 1,
                random,
            },
        }
    }

    pub fn short(way: Way) -> Self {
        Extent {
            bytes: 3,
            tokens: 4,
            random: 5_000,
        }
        .thinner(way)
    }

    fn thinner(self, way: Way) -> Self {
        match way {
            Way::Linked => self,
            Way::Served => Extent {
                bytes: 1,
                tokens: 1,
                random: 200,
            },
        }
    }
}

/// More than any room that is lent, so that what stands behind it is seen too.
const PLACES: usize = 40;

struct Lent {
    codes: [u8; PLACES],
    lefts: [u16; PLACES],
    rights: [u16; PLACES],
    sizes: [u8; PLACES],
    out: [u64; 12],
}

impl Lent {
    /// Filled with a pattern that no node has.
    fn new(salt: u64) -> Self {
        let byte = |i: usize| 0x80 | (salt as usize + 7 * i) as u8;
        let half = |i: usize| 0x8000 | (salt as usize + 31 * i) as u16;
        Lent {
            codes: std::array::from_fn(byte),
            lefts: std::array::from_fn(half),
            rights: std::array::from_fn(|i| half(i + 3)),
            sizes: std::array::from_fn(|i| byte(i + 5)),
            out: std::array::from_fn(|i| 1 << 63 | salt << 8 | i as u64),
        }
    }

    fn same(&self, other: &Lent) -> bool {
        self.codes == other.codes
            && self.lefts == other.lefts
            && self.rights == other.rights
            && self.sizes == other.sizes
            && self.out == other.out
    }
}

struct Parsing {
    library: Box<dyn Boundary>,
    random: Random,
    compared: u64,
    differ: u64,
}

/// Lengths of the four slices and of `out`.
type Rooms = [usize; 5];
const ROOMY: Rooms = [31, 31, 31, 31, 8];

impl Parsing {
    /// One text: the word returned, `out`, every node, and what stays.
    fn hold(&mut self, names: &[u8], text: &[u8], rooms: Rooms) {
        let due = prose::parse(names, text, *rooms[..4].iter().min().unwrap(), rooms[4]);
        self.hold_to(names, text, rooms, due);
    }

    fn hold_to(&mut self, names: &[u8], text: &[u8], rooms: Rooms, due: Result<Vec<Node>, u64>) {
        let salt = self.compared & 0xff;
        let (mut lent, mut stands) = (Lent::new(salt), Lent::new(salt));
        let said = self.library.call(
            Function::Parse,
            &[],
            &mut [
                Slice::Bytes(names),
                Slice::Bytes(text),
                Slice::BytesOut(&mut lent.codes[..rooms[0]]),
                Slice::HalvesOut(&mut lent.lefts[..rooms[1]]),
                Slice::HalvesOut(&mut lent.rights[..rooms[2]]),
                Slice::BytesOut(&mut lent.sizes[..rooms[3]]),
                Slice::WordsOut(&mut lent.out[..rooms[4]]),
            ],
        );
        let answer = match &due {
            Ok(nodes) => {
                for (at, node) in nodes.iter().enumerate() {
                    stands.codes[at] = node[0] as u8;
                    stands.lefts[at] = node[1] as u16;
                    stands.rights[at] = node[2] as u16;
                    stands.sizes[at] = node[3] as u8;
                }
                stands.out[0] = nodes.len() as u64;
                0
            }
            Err(number) => *number,
        };
        self.compared += 1;
        if said == answer && lent.same(&stands) {
            return;
        }
        self.differ += 1;
        if self.differ == 1 {
            let text = String::from_utf8_lossy(text).to_string();
            println!("  the first: {text:?} with rooms {rooms:?} answers {said} and has to answer {answer}; nodes due: {due:?}");
            println!(
                "  codes {:?}, lefts {:?}, rights {:?}, sizes {:?}, out {:?}",
                lent.codes, lent.lefts, lent.rights, lent.sizes, lent.out
            );
        }
    }

    /// All lists of up to `most` of these pieces.
    fn every(&mut self, names: &[u8], pieces: &[&[u8]], between: &[u8], most: u32) {
        for count in 0..=most {
            for number in 0..(pieces.len() as u64).pow(count) {
                let (mut text, mut rest) = (vec![], number);
                for _ in 0..count {
                    text.extend(pieces[(rest % pieces.len() as u64) as usize]);
                    text.extend(between);
                    rest /= pieces.len() as u64;
                }
                self.hold(names, &text, ROOMY);
            }
        }
    }

    fn typed(&mut self, count: u64) {
        let letters: Vec<String> = ["p", "q", "Xq", "trues", "a_9", "sixteen_bytes_ab", "U2", "f"]
            .map(String::from)
            .to_vec();
        for _ in 0..count {
            let m = 1 + self.random.below(letters.len() as u64) as usize;
            let names = &letters[..m];
            let section = section(names);
            let size = 1 + self.random.below(33) as usize;
            let tree = tree(&mut self.random, m, size);
            let mut due = vec![];
            nodes(&tree, &mut due);
            let spare = 2 + self.random.below(20);
            let mut typing = Typing {
                random: &mut self.random,
                names,
                text: vec![],
                spare,
            };
            typing.write(&tree, 0);
            let mut text = typing.text;
            // As typed: the very tree. Sizes above 31 are 12.
            let due = if size > 31 { Err(12) } else { Ok(due) };
            self.hold_to(&section, &text, ROOMY, due);
            let mut rooms = [size.min(31) + self.random.below(3) as usize; 5];
            rooms[4] = 8 + self.random.below(3) as usize;
            self.hold(&section, &text, rooms);
            // One place too little in one slice, or one word in `out`.
            let short = self.random.below(5) as usize;
            rooms[short] = if short == 4 { 7 } else { size.min(31) - 1 };
            self.hold(&section, &text, rooms);
            damage(&mut self.random, &mut text, TELLING);
            self.hold(&section, &text, ROOMY);
            self.hold(&section, &text, rooms);
            let fewer = self.random.below(section.len() as u64 + 1) as usize;
            let mut cut = section[..fewer].to_vec();
            if self.random.below(4) == 0 {
                cut = section.clone();
                cut.push(self.random.next() as u8);
            }
            self.hold(&cut, &text, rooms);
        }
    }

    fn limits(&mut self) {
        let names = section(&["p".to_string(), "sixteen_bytes_ab".to_string()]);
        let mut texts: Vec<Vec<u8>> = vec![];
        let many = |byte: u8, count: usize| vec![byte; count];
        for length in [0, 1, 4094, 4095, 4096, 4097, 4098, 5000, 70_000] {
            for byte in *b" (!pX)" {
                texts.push(many(byte, length));
                texts.push([many(byte, length), b"p".to_vec()].concat());
                texts.push([b"p".to_vec(), many(byte, length)].concat());
                texts.push([b"zz".to_vec(), many(byte, length)].concat());
            }
        }
        for deep in [1, 62, 63, 64, 65, 66, 1000, 2047, 2048] {
            let both = |inner: &[u8]| [many(b'(', deep), inner.to_vec(), many(b')', deep)].concat();
            texts.extend([
                both(b"p"),
                both(b"zz"),
                both(b""),
                both(b"p&p"),
                [both(b"p"), b")".to_vec()].concat(),
            ]);
            texts.push([b"(".to_vec(), both(b"p")].concat());
            texts.push([both(b"p"), b"|".to_vec(), both(b"p")].concat());
        }
        // Many brackets, few open at once.
        texts.push([b"p".to_vec(), b"&(p)".repeat(14)].concat());
        for count in [1, 14, 15, 16, 29, 30, 31, 32, 1000, 1365] {
            for token in ["&", "|", " U ", " R ", "->", "<->"] {
                texts.push([b"p".to_vec(), [token.as_bytes(), b"p"].concat().repeat(count)].concat());
                texts.push([b"p".to_vec(), [token.as_bytes(), b"!p"].concat().repeat(count)].concat());
            }
            texts.push([b"!".repeat(count), b"p".to_vec()].concat());
            texts.push([b"X[!]".repeat(count.min(1023)), b"p".to_vec()].concat());
            texts.push([b"X ".repeat(count), b"zz".to_vec()].concat());
        }
        for letters in 14..20 {
            for end in ["", " ", "&p", "(", "_"] {
                texts.push([many(b'a', letters), end.as_bytes().to_vec()].concat());
                texts.push([b"sixteen_bytes_ab"[..letters.min(16)].to_vec(), end.as_bytes().to_vec()].concat());
            }
        }
        for text in texts {
            self.hold(&names, &text, ROOMY);
            for short in 0..5 {
                let mut rooms = ROOMY;
                rooms[short] = if short == 4 { 7 } else { 30 };
                self.hold(&names, &text, rooms);
            }
            self.hold(&names, &text, [0; 5]);
            self.hold(&names[..2], &text, ROOMY);
        }
    }

    /// What is printed, read back with the same names, prints the same.
    fn round(&mut self, rounds: u64) {
        for _ in 0..rounds {
            for size in 1..=31 {
                let m = 1 + self.random.below(16) as usize;
                let names = crate::formulas::names(m);
                let section = section(&names);
                let f = formula(&mut self.random, &names, size);
                let columns = |list: &[crate::formulas::Node]| -> (Vec<u8>, Vec<u16>, Vec<u16>, Vec<u8>) {
                    (
                        list.iter().map(|n| n.0).collect(),
                        list.iter().map(|n| n.1 as u16).collect(),
                        list.iter().map(|n| n.2 as u16).collect(),
                        list.iter().map(|n| n.3 as u8).collect(),
                    )
                };
                let (codes, lefts, rights, sizes) = columns(&f.listed);
                let root = [f.root.0 as u64, f.root.1 as u64, f.root.2 as u64, f.root.3 as u64];
                let text = self.printed(&section, &codes, &lefts, &rights, &sizes, root);
                self.hold(&section, &text, ROOMY);
                let mut lent = Lent::new(0);
                self.library.call(
                    Function::Parse,
                    &[],
                    &mut [
                        Slice::Bytes(&section),
                        Slice::Bytes(&text),
                        Slice::BytesOut(&mut lent.codes),
                        Slice::HalvesOut(&mut lent.lefts),
                        Slice::HalvesOut(&mut lent.rights),
                        Slice::BytesOut(&mut lent.sizes),
                        Slice::WordsOut(&mut lent.out),
                    ],
                );
                let n = lent.out[0] as usize;
                let last = n - 1;
                let root = [
                    lent.codes[last] as u64,
                    lent.lefts[last] as u64,
                    lent.rights[last] as u64,
                    lent.sizes[last] as u64,
                ];
                let again = self.printed(
                    &section,
                    &lent.codes[..last],
                    &lent.lefts[..last],
                    &lent.rights[..last],
                    &lent.sizes[..last],
                    root,
                );
                self.compared += 1;
                if n != size || text != again || text != f.tree.to_string().into_bytes() {
                    self.differ += 1;
                    println!(
                        "  {:?} read back prints {:?}",
                        String::from_utf8_lossy(&text),
                        String::from_utf8_lossy(&again)
                    );
                }
            }
        }
    }

    #[rustfmt::skip]
    fn printed(&mut self, names: &[u8], codes: &[u8], lefts: &[u16], rights: &[u16], sizes: &[u8], root: [u64; 4]) -> Vec<u8> {
        let (mut text, mut out) = (vec![0; 391], [0; 8]);
        let said = self.library.call(
            Function::Print,
            &root,
            &mut [
                Slice::Bytes(names), Slice::Bytes(codes), Slice::Halves(lefts), Slice::Halves(rights), Slice::Bytes(sizes),
                Slice::BytesOut(&mut text), Slice::WordsOut(&mut out),
            ],
        );
        assert_eq!(said, 0, "print refused");
        text.truncate(out[0] as usize);
        text
    }

    fn report(&mut self, what: &str, all: &mut (u64, u64)) {
        println!("{what}: compared {}, {} differ", self.compared, self.differ);
        *all = (all.0 + self.compared, all.1 + self.differ);
        self.compared = 0;
        self.differ = 0;
    }
}

pub fn run(way: Way, extent: Extent) -> i32 {
    let Some(library) = boundary::opened(way, "texts of formulas") else {
        return 1;
    };
    let mut parsing = Parsing {
        library,
        random: Random::new(14),
        compared: 0,
        differ: 0,
    };
    let mut all = (0, 0);
    let names = section(&["p".to_string(), "q".to_string()]);
    let bytes: Vec<&[u8]> = TELLING.chunks(1).collect();
    parsing.every(&names, &bytes, b"", extent.bytes);
    parsing.report(
        &format!("texts of up to {} of {} bytes", extent.bytes, bytes.len()),
        &mut all,
    );
    let tokens: Vec<&[u8]> = TOKENS.iter().map(|token| token.as_bytes()).collect();
    parsing.every(&names, &tokens, b" ", extent.tokens);
    parsing.report(
        &format!("runs of up to {} of {} tokens", extent.tokens, tokens.len()),
        &mut all,
    );
    parsing.limits();
    parsing.report("texts at the limits", &mut all);
    parsing.typed(extent.random);
    parsing.report("random texts, typed and damaged", &mut all);
    parsing.round(1 + extent.random / 2_000);
    parsing.report("printed, read back and printed again", &mut all);
    println!("texts of formulas: compared {}, {} differ", all.0, all.1);
    (all.1 > 0) as i32
}
