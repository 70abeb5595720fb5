//! Random typed sheets: trees of the grammar, written with random blanks, zeros and brackets beside
//! the sheet that the text stands for, and texts damaged here and there.

use super::{clause, reach, Random};
use crate::build::Role::*;
use crate::build::{Node, Part, Sheet};
use crate::reference::{stored, Number};

/// A text with the sheet that it stands for.
pub struct Typed {
    pub text: Vec<u8>,
    pub sheet: Sheet,
    /// The most round brackets that are open at a place.
    pub open: usize,
}

impl Typed {
    /// What its reader answers, for so many lent bytes: known without reading the text.
    pub fn answer(&self, out: usize) -> Result<Vec<u8>, Number> {
        if self.open > 32 {
            return Err(18);
        }
        if self.sheet.nodes.len() > 64 || self.sheet.clauses.len() > 8 {
            return Err(20);
        }
        let bytes = self.sheet.bytes();
        stored::sheet(&bytes)?;
        if out < 8192 {
            return Err(14);
        }
        Ok(bytes)
    }
}

/// What may be wrong with what a text says.
#[derive(Clone, Copy, Debug, PartialEq, Eq)]
pub enum Flaw {
    Nothing,
    /// The counts of signals and names are any.
    Counts,
    /// Signals, names, symbols and gaps are any.
    Fields,
    /// The names after a part are any.
    Masks,
    /// Brackets are put around some piece until so many are open.
    Nesting(usize),
}

/// What a text may be like.
#[derive(Clone, Copy)]
pub struct TextShape {
    pub signals: usize,
    pub names: usize,
    /// The nodes of the sheet, or as many as there are parts.
    pub nodes: usize,
    pub clauses: usize,
    pub flaw: Flaw,
}

enum Proposition {
    Leaf(Vec<u8>, u8, usize),
    Not(Box<Proposition>),
    Joined(u8, Box<Proposition>, Box<Proposition>),
}

enum Formula {
    /// The words and numbers of a piece without propositions, and its node.
    Leaf(Vec<Word>, [usize; 4]),
    Around(u8, Proposition),
    Compared(u8, Proposition, usize, usize),
    Star(Box<Formula>),
    Joined(u8, Box<Formula>, Box<Formula>),
}

#[derive(Clone)]
enum Word {
    Plain(String),
    Number(usize),
}

const COMPARISONS: [&str; 5] = ["<", "<=", "=", ">=", ">"];
const TYPES: [(&str, usize); 6] =
    [("pref", 1), ("init", 2), ("anti", 1), ("implies", 2), ("follows", 3), ("triggers", 3)];

/// Trees of the grammar, each of exactly so many nodes.
struct Draw<'r> {
    random: &'r mut Random,
    shape: TextShape,
}

impl Draw<'_> {
    fn signal(&mut self) -> usize {
        let any = self.shape.flaw == Flaw::Fields && self.random.one_in(4);
        self.random.below(if any { 16 } else { self.shape.signals.clamp(1, 16) })
    }

    /// A name, where there is one.
    fn name(&mut self) -> Option<usize> {
        if self.shape.flaw == Flaw::Fields && self.random.one_in(6) {
            return Some(self.random.below(3));
        }
        let names = self.shape.names.min(3);
        (names > 0).then(|| self.random.below(names))
    }

    fn number(&mut self) -> usize {
        let large = self.random.pick(&[9, 10, 99, 255, 256, 1000, 9999, 65_534, 65_535]);
        if self.random.one_in(5) {
            large
        } else {
            self.random.below(6)
        }
    }

    fn proposition(&mut self, nodes: usize) -> Proposition {
        if nodes == 1 {
            return match (self.random.below(6), self.name()) {
                (0, _) => Proposition::Leaf(b"false".to_vec(), 1, 0),
                (1, _) => Proposition::Leaf(b"true".to_vec(), 2, 0),
                (2 | 3, Some(u)) => Proposition::Leaf(format!("u{u}").into(), 4, u),
                _ => {
                    let k = self.signal();
                    Proposition::Leaf(format!("s{k}").into(), 3, k)
                }
            };
        }
        if nodes == 2 || self.random.one_in(4) {
            return Proposition::Not(Box::new(self.proposition(nodes - 1)));
        }
        let left = self.random.between(1, nodes - 2);
        let op = self.random.between(6, 7) as u8;
        let (p, q) = (self.proposition(left), self.proposition(nodes - 1 - left));
        Proposition::Joined(op, Box::new(p), Box::new(q))
    }

    fn formula(&mut self, nodes: usize) -> Formula {
        if nodes == 1 {
            return self.leaf();
        }
        // Deep propositions are not to crowd out joined formulas.
        if nodes == 2 || self.random.one_in(if nodes < 6 { 3 } else { 8 }) {
            return match self.random.below(5) {
                0 => Formula::Star(Box::new(self.formula(nodes - 1))),
                1 | 2 => {
                    let op = self.random.between(16, 19) as u8;
                    Formula::Around(op, self.proposition(nodes - 1))
                }
                _ => {
                    let (op, q) = (self.random.between(25, 26) as u8, self.random.below(5));
                    let number = self.number();
                    Formula::Compared(op, self.proposition(nodes - 1), q, number)
                }
            };
        }
        let left = self.random.between(1, nodes - 2);
        let op = self.random.between(20, 22) as u8;
        let (f, g) = (self.formula(left), self.formula(nodes - 1 - left));
        Formula::Joined(op, Box::new(f), Box::new(g))
    }

    fn leaf(&mut self) -> Formula {
        let plain = |text: &str| Word::Plain(text.to_string());
        match (self.random.below(4), self.name(), self.name()) {
            (0, Some(u), _) => {
                let words = vec![plain("at"), plain("("), Word::Plain(format!("u{u}")), plain(")")];
                Formula::Leaf(words, [28, 0, u, 0])
            }
            (1, Some(u), Some(v)) => {
                let any = self.shape.flaw == Flaw::Fields && self.random.one_in(3);
                let (mut a, mut b) = (self.number(), self.number());
                if a > b && !any {
                    (a, b) = (b, a);
                }
                let mut words = vec![plain("gap"), plain("("), Word::Plain(format!("u{u}"))];
                words.extend([plain(","), Word::Plain(format!("u{v}"))]);
                words.extend([plain(","), Word::Number(a), plain(","), Word::Number(b)]);
                words.push(plain(")"));
                Formula::Leaf(words, [29, 16 * u + v, a, b])
            }
            (2, ..) => {
                let (q, number) = (self.random.below(5), self.number());
                let words = vec![plain("slen"), plain(COMPARISONS[q]), Word::Number(number)];
                Formula::Leaf(words, [24, q, 0, number])
            }
            _ => {
                let any = self.shape.flaw == Flaw::Fields && self.random.one_in(4);
                let large = self.random.pick(&[8, 9, 255, 256, 257, 263, 300, 65_535]);
                let q = if any { large } else { self.random.below(8) };
                let k = self.signal();
                let mut words = vec![plain("draw"), plain("("), Word::Number(q), plain(",")];
                words.extend([Word::Plain(format!("s{k}")), plain(")")]);
                Formula::Leaf(words, [27, q.min(255), k, 0])
            }
        }
    }
}

/// How a text is written. Each is one in so many, and never where it is 0.
struct Style {
    blanks: usize,
    zeros: usize,
    brackets: usize,
}

struct Writer<'r> {
    random: &'r mut Random,
    style: Style,
    /// So many brackets are to be open, once.
    nesting: usize,
    typed: Typed,
    open: usize,
}

impl Writer<'_> {
    fn chance(&mut self, one_in: usize) -> bool {
        one_in > 0 && self.random.one_in(one_in)
    }

    fn blanks(&mut self) {
        while self.chance(self.style.blanks) {
            let blank = self.random.pick(b"  \t");
            self.typed.text.push(blank);
        }
    }

    /// A word or sign, with blanks before it.
    fn put(&mut self, word: &str) {
        self.blanks();
        self.typed.text.extend(word.as_bytes());
        match word {
            "(" => self.open += 1,
            ")" => self.open -= 1,
            _ => (),
        }
        self.typed.open = self.typed.open.max(self.open);
    }

    fn number(&mut self, number: usize) {
        let zeros = if self.chance(self.style.zeros) {
            let most = self.random.pick(&[1, 2, 5, 40]);
            self.random.between(1, most)
        } else {
            0
        };
        self.put(&("0".repeat(zeros) + &number.to_string()));
    }

    fn end_line(&mut self) {
        self.blanks();
        self.typed.text.push(b'\n');
    }

    /// Brackets that need not be there.
    fn needless(&mut self) -> usize {
        if self.open > 0 && self.nesting > self.open && self.random.one_in(3) {
            let more = self.nesting - self.open;
            self.nesting = 0;
            return more;
        }
        let mut more = 0;
        while self.chance(self.style.brackets) {
            more += 1;
        }
        more
    }

    /// Writes what binds as tightly as `level` where `least` is wanted, in brackets if it must be.
    fn bracketed(
        &mut self,
        level: usize,
        least: usize,
        write: impl FnOnce(&mut Self) -> Node,
    ) -> Node {
        let brackets = (level < least) as usize + self.needless();
        (0..brackets).for_each(|_| self.put("("));
        let node = write(self);
        (0..brackets).for_each(|_| self.put(")"));
        node
    }

    fn proposition(&mut self, tree: &Proposition, least: usize) -> Node {
        let level = match tree {
            Proposition::Joined(7, ..) => 0,
            Proposition::Joined(..) => 1,
            _ => 2,
        };
        self.bracketed(level, least, |writer| match tree {
            Proposition::Leaf(word, op, a) => {
                writer.put(std::str::from_utf8(word).unwrap());
                writer.typed.sheet.node(*op, 0, *a as u16, 0)
            }
            Proposition::Not(p) => {
                writer.put("!");
                let p = writer.proposition(p, 2);
                writer.typed.sheet.not(p)
            }
            Proposition::Joined(op, p, q) => {
                let p = writer.proposition(p, level);
                writer.put(if *op == 7 { "|" } else { "&" });
                let q = writer.proposition(q, level + 1);
                writer.typed.sheet.node(*op, 0, p.0, q.0)
            }
        })
    }

    fn formula(&mut self, tree: &Formula, least: usize) -> Node {
        let level = match tree {
            Formula::Joined(op, ..) => 22 - *op as usize,
            _ => 3,
        };
        self.bracketed(level, least, |writer| match tree {
            Formula::Leaf(words, [op, q, a, b]) => {
                for word in words {
                    match word {
                        Word::Plain(word) => writer.put(word),
                        Word::Number(number) => writer.number(*number),
                    }
                }
                writer.typed.sheet.node(*op as u8, *q as u8, *a as u16, *b as u16)
            }
            Formula::Around(op, p) => {
                let (open, close) =
                    [("<", ">"), ("[", "]"), ("[[", "]]"), ("{{", "}}")][*op as usize - 16];
                writer.put(open);
                let p = writer.proposition(p, 0);
                writer.put(close);
                writer.typed.sheet.node(*op, 0, p.0, 0)
            }
            Formula::Compared(op, p, q, number) => {
                writer.put(if *op == 25 { "scount" } else { "sdur" });
                writer.put("(");
                let p = writer.proposition(p, 0);
                writer.put(")");
                writer.put(COMPARISONS[*q]);
                writer.number(*number);
                writer.typed.sheet.node(*op, *q as u8, p.0, *number as u16)
            }
            Formula::Star(f) => {
                writer.put("(");
                let f = writer.formula(f, 0);
                writer.put(")");
                writer.put("*");
                writer.typed.sheet.star(f)
            }
            Formula::Joined(op, f, g) => {
                let f = writer.formula(f, level);
                writer.put(["^", "&", "|"][*op as usize - 20]);
                let g = writer.formula(g, level + 1);
                writer.typed.sheet.node(*op, 0, f.0, g.0)
            }
        })
    }

    /// The colon and the names of a mask, in any order.
    fn names(&mut self, mask: u8) {
        self.put(":");
        let mut names: Vec<usize> = (0..3).filter(|u| mask >> u & 1 == 1).collect();
        while !names.is_empty() {
            let name = names.remove(self.random.below(names.len()));
            self.put(&format!("u{name}"));
        }
    }
}

/// So many in so many portions, none of them empty.
fn portions(random: &mut Random, total: usize, count: usize) -> Vec<usize> {
    let mut portions = vec![1; count];
    for _ in count..total {
        portions[random.below(count)] += 1;
    }
    portions
}

/// A random typed sheet.
pub fn typed(random: &mut Random, shape: TextShape) -> Typed {
    let (mut signals, mut names) = (shape.signals, shape.names);
    if shape.flaw == Flaw::Counts {
        signals = random.pick(&[signals, 0, 17, 255, 256, 257, 300, 65_535]);
        names = random.pick(&[names, names, 4, 255, 256, 259, 65_535]);
    }
    let types: Vec<usize> = (0..shape.clauses).map(|_| random.below(6)).collect();
    let parts = types.iter().map(|&t| TYPES[t].1).sum();
    let mut sizes = portions(random, shape.nodes, parts).into_iter();
    let style = Style {
        blanks: random.pick(&[0, 2, 2, 8]),
        zeros: random.pick(&[0, 2, 8]),
        brackets: random.pick(&[0, 0, 4, 10]),
    };
    let nesting = if let Flaw::Nesting(open) = shape.flaw { open } else { 0 };
    let sheet = Sheet::new(signals.min(255) as u8, names.min(255) as u8);
    let typed = Typed { text: vec![], sheet, open: 0 };
    let mut writer = Writer { random, style, nesting, typed, open: 0 };
    writer.number(signals);
    let blank = writer.random.pick(b" \t");
    writer.typed.text.push(blank);
    writer.number(names);
    writer.end_line();
    for t in types {
        let role = if writer.random.one_in(2) { Assumption } else { Commitment };
        writer.put(if role == Assumption { "assume" } else { "require" });
        writer.put(TYPES[t].0);
        writer.put("(");
        let mut roots = vec![];
        for part in 0..TYPES[t].1 {
            if part > 0 {
                writer.put(",");
            }
            let size = sizes.next().unwrap();
            let tree = Draw { random: writer.random, shape }.formula(size);
            let root = writer.formula(&tree, 0);
            let mut mask = reach(&writer.typed.sheet, root);
            if shape.flaw == Flaw::Masks && writer.random.one_in(2) {
                mask = writer.random.below(8) as u8;
            } else if writer.random.one_in(4) {
                mask |= writer.random.below(1 << shape.names.min(3)) as u8;
            }
            writer.names(mask);
            roots.push(Part(root, mask));
        }
        writer.put(")");
        writer.end_line();
        roots.resize(3, Part(Node(0), 0));
        clause(&mut writer.typed.sheet, t + 1, role, [roots[0], roots[1], roots[2]]);
    }
    writer.typed
}

/// Words and signs, for texts that are damaged or strung together from them.
#[rustfmt::skip]
pub const WORDS: [&str; 56] = [
    "assume", "require", "pref", "init", "anti", "implies", "follows", "triggers", "slen",
    "scount", "sdur", "draw", "at", "gap", "true", "false", "s0", "s1", "s2", "s10", "s15",
    "s16", "s00", "s", "u0", "u1", "u2", "u3", "u", "0", "1", "007", "65535", "65536", "|", "&",
    "^", "!", "*", "(", ")", "<", ">", "[", "]", "[[", "]]", "{{", "}}", "<=", ">=", "=", ":",
    ",", "{", "}",
];

/// What is put where a number stood.
#[rustfmt::skip]
const NUMBERS: [&str; 20] = [
    "0", "1", "02", "3", "007", "15", "255", "65535", "0065535", "65536", "065536", "99999",
    "655350", "4294967296", "18446744073709551616", "18446744073709551617", "-1", "0x1", "1.0", "",
];

/// A text changed in one to three places.
pub fn damaged(random: &mut Random, text: &[u8]) -> Vec<u8> {
    let mut text = text.to_vec();
    for _ in 0..random.pick(&[1, 1, 1, 2, 3]) {
        if text.is_empty() {
            text = b"1 0\n".to_vec();
        }
        let at = random.below(text.len());
        match random.below(21) {
            0 => drop(text.remove(at)),
            1 => text.insert(at, text[at]),
            2 => text[at] = random.pick(b"|&^!*()<>[]{}=:, \t\nsu0123456789atgp"),
            3 => text[at] = random.next() as u8,
            4 if at > 0 => text.swap(at - 1, at),
            4 | 5 => {
                // A blank, often within a word or sign.
                let doubled: Vec<usize> =
                    (1..text.len()).filter(|&i| text[i].is_ascii_punctuation()).collect();
                let at =
                    if doubled.is_empty() || random.one_in(3) { at } else { random.pick(&doubled) };
                text.insert(at, random.pick(b" \t"));
            }
            6 => {
                // One name or more after a colon, perhaps again.
                let name = random.pick(&["u0", "u1", "u2", "u0u1u2", " u1 u1", "u 0", "u3", ",u0"]);
                insert_after(random, &mut text, b":", name);
            }
            7 | 8 => {
                let number = random.pick(&NUMBERS);
                replace_number(random, &mut text, number);
            }
            9 => {
                let end = random.pick(&["", "\n\n", "\r\n", "\n \n", " ", "\n\t", "\n1 0\n"]);
                replace(random, &mut text, "\n", end);
            }
            10 => text.extend(random.pick(&["\n", " ", "\0", "require", "\n\n", ")", "("]).bytes()),
            11 => drop(text.pop()),
            12 => {
                // Another type of clause, mostly with another number of parts.
                let (word, other) = (random.pick(&TYPES).0, random.pick(&TYPES).0);
                replace(random, &mut text, word, other);
            }
            13 => {
                let part = random.pick(&[", slen = 1:", ",<true>:,", ",", "slen=1:,", ":", ")("]);
                insert_after(random, &mut text, b",:(", part);
            }
            14 => {
                let sign =
                    random.pick(&["|", "&", "^", "!", "<=", ">=", "[[", "]]", "*", "=", "<"]);
                let other = random.pick(&["|", "&", "^", "!", "<", ">", "[", "]", "**", "= ", ""]);
                replace(random, &mut text, sign, other);
            }
            15 => {
                let (sign, other) = (random.pick(&["|", "&", "^"]), random.pick(&["|", "&", "^"]));
                replace(random, &mut text, sign, other);
            }
            16 => {
                let word = random.pick(&WORDS);
                text.splice(at..at, word.bytes());
            }
            17 => {
                let (word, other) = (random.pick(&WORDS), random.pick(&WORDS));
                replace(random, &mut text, word, other);
            }
            18 => {
                let end = (at + random.between(1, 12)).min(text.len());
                drop(text.drain(at..end));
            }
            19 => {
                let bracket = random.pick(b"()");
                let count = random.pick(&[1, 2, 20, 30, 31, 32, 33, 40]);
                text.splice(at..at, vec![bracket; count]);
            }
            _ => {
                // A line twice, or gone.
                let mut lines: Vec<Vec<u8>> =
                    text.split_inclusive(|&byte| byte == b'\n').map(<[u8]>::to_vec).collect();
                let line = random.below(lines.len());
                if random.one_in(2) {
                    lines.insert(line, lines[line].clone());
                } else {
                    lines.remove(line);
                }
                text = lines.concat();
            }
        }
    }
    text
}

/// Puts a word after some byte that is one of these, if there is one.
fn insert_after(random: &mut Random, text: &mut Vec<u8>, bytes: &[u8], word: &str) {
    let places: Vec<usize> = (0..text.len()).filter(|&at| bytes.contains(&text[at])).collect();
    if !places.is_empty() {
        let at = random.pick(&places) + 1;
        text.splice(at..at, word.bytes());
    }
}

/// Puts a word in some place where another stands, if it stands anywhere.
fn replace(random: &mut Random, text: &mut Vec<u8>, word: &str, other: &str) {
    let places: Vec<usize> =
        (0..text.len()).filter(|&at| text[at..].starts_with(word.as_bytes())).collect();
    if !places.is_empty() {
        let at = random.pick(&places);
        text.splice(at..at + word.len(), other.bytes());
    }
}

/// Puts something else where some number stands, which may be that of a signal or name.
fn replace_number(random: &mut Random, text: &mut Vec<u8>, other: &str) {
    let digit = |at: usize| text.get(at).is_some_and(u8::is_ascii_digit);
    let starts: Vec<usize> =
        (0..text.len()).filter(|&at| digit(at) && (at == 0 || !digit(at - 1))).collect();
    if !starts.is_empty() {
        let start = random.pick(&starts);
        let end = (start..).find(|&at| !digit(at)).unwrap();
        text.splice(start..end, other.bytes());
    }
}
