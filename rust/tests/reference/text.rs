//! Sheets typed at the desk, from change request No. 1 alone. Nothing is read from left to right: a
//! span of bytes is a formula, say, where some way of cutting it gives what a formula is made of.
//! Every way is tried, and no span may have two: that the reading is unique is asserted here.

use super::{stored, Number};
use std::collections::HashMap;
use std::rc::Rc;

/// The stored bytes of a typed sheet, for so many lent bytes.
pub fn read_text(text: &[u8], output: usize) -> Result<Vec<u8>, Number> {
    if most_open(text) > 32 {
        return Err(18);
    }
    let typed = typed(text).ok_or(19)?;
    let (nodes, clauses) = numbered(&typed);
    if nodes.len() > 64 || clauses.len() > 8 {
        return Err(20);
    }
    let bytes = bytes(&typed, &nodes, &clauses);
    stored::sheet(&bytes)?;
    if output < 8192 {
        return Err(14);
    }
    Ok(bytes)
}

/// The most round brackets that are open at a place.
fn most_open(text: &[u8]) -> usize {
    let (mut open, mut most) = (vec![], 0);
    for (at, byte) in text.iter().enumerate() {
        match byte {
            b'(' => open.push(at),
            // A stray one finds none to close.
            b')' => drop(open.pop()),
            _ => (),
        }
        most = most.max(open.len());
    }
    most
}

/// A node with its operands under it.
struct Tree {
    op: u8,
    q: usize,
    a: Field,
    b: Field,
}

enum Field {
    Plain(usize),
    Operand(Rc<Tree>),
}

use Field::{Operand, Plain};

fn node(op: u8, q: usize, a: Field, b: Field) -> Rc<Tree> {
    Rc::new(Tree { op, q, a, b })
}

#[derive(Clone)]
struct Part {
    root: Rc<Tree>,
    names: Vec<usize>,
}

struct Clause {
    clause_type: u8,
    role: u8,
    parts: Vec<Part>,
}

struct Typed {
    signals: usize,
    names: usize,
    clauses: Vec<Clause>,
}

/// What a text says, if it is in the grammar.
fn typed(text: &[u8]) -> Option<Typed> {
    let mut lines: Vec<&[u8]> = text.split(|&byte| byte == 10).collect();
    // Each line ends in byte 10, so nothing is left after the last.
    if !lines.pop()?.is_empty() || lines.is_empty() {
        return None;
    }
    let (signals, names) = Line::new(lines[0]).counts()?;
    let clauses: Option<Vec<Clause>> =
        lines[1..].iter().map(|line| Line::new(line).clause()).collect();
    Some(Typed { signals, names, clauses: clauses? })
}

/// What a span may be. A formula is joined by |, conjunctions by &, rows by ^; pieces have no joiner
/// outside their brackets. So with propositions, the joiner of a row left out.
#[derive(Clone, Copy, Debug, PartialEq, Eq, Hash)]
enum Sort {
    Formula,
    Conjunction,
    Row,
    Piece,
    Proposition,
    Both,
    Single,
}

/// A span of a line: its first byte and the one after its last.
type Span = (usize, usize);

struct Line<'t> {
    bytes: &'t [u8],
    known: HashMap<(Sort, Span), Option<Rc<Tree>>>,
}

/// Signs of comparison in the order of their numbers.
const COMPARISONS: [&str; 5] = ["<", "<=", "=", ">=", ">"];

/// The word of each type of clause from 1 up, and how many parts it has.
const TYPES: [(&str, usize); 6] =
    [("pref", 1), ("init", 2), ("anti", 1), ("implies", 2), ("follows", 3), ("triggers", 3)];

fn is_blank(byte: u8) -> bool {
    byte == b' ' || byte == b'\t'
}

impl<'t> Line<'t> {
    fn new(bytes: &'t [u8]) -> Self {
        Line { bytes, known: HashMap::new() }
    }

    /// The only way there is, if there is one.
    fn only<T>(&self, mut ways: Vec<T>) -> Option<T> {
        assert!(ways.len() <= 1, "two readings in {}", String::from_utf8_lossy(self.bytes));
        ways.pop()
    }

    // Spans, words, numbers.

    fn whole(&self) -> Span {
        (0, self.bytes.len())
    }

    /// The span without the blanks around it.
    fn trimmed(&self, (mut from, mut to): Span) -> Span {
        while from < to && is_blank(self.bytes[from]) {
            from += 1;
        }
        while from < to && is_blank(self.bytes[to - 1]) {
            to -= 1;
        }
        (from, to)
    }

    fn word(&self, span: Span) -> &'t [u8] {
        let (from, to) = self.trimmed(span);
        &self.bytes[from..to]
    }

    fn is(&self, span: Span, word: &str) -> bool {
        self.word(span) == word.as_bytes()
    }

    /// What follows the word that the span begins with.
    fn after(&self, word: &str, span: Span) -> Option<Span> {
        let (from, to) = self.trimmed(span);
        self.bytes[from..to].starts_with(word.as_bytes()).then_some((from + word.len(), to))
    }

    /// What comes before the word that the span ends with.
    fn before(&self, word: &str, span: Span) -> Option<Span> {
        let (from, to) = self.trimmed(span);
        self.bytes[from..to].ends_with(word.as_bytes()).then(|| (from, to - word.len()))
    }

    /// What stands between two signs.
    fn between(&self, open: &str, close: &str, span: Span) -> Option<Span> {
        self.before(close, self.after(open, span)?)
    }

    /// All ways to cut the span in two at a sign, the sign left out.
    fn cuts(&self, sign: &str, (from, to): Span) -> Vec<(Span, Span)> {
        (from..to)
            .filter(|&at| self.bytes[at..to].starts_with(sign.as_bytes()))
            .map(|at| ((from, at), (at + sign.len(), to)))
            .collect()
    }

    /// The spans between the commas.
    fn at_commas(&self, (from, to): Span) -> Vec<Span> {
        let commas = (from..to).filter(|&at| self.bytes[at] == b',');
        let (mut spans, mut start) = (vec![], from);
        for comma in commas {
            spans.push((start, comma));
            start = comma + 1;
        }
        spans.push((start, to));
        spans
    }

    /// A decimal number up to 65,535.
    fn number(&self, span: Span) -> Option<usize> {
        let digits = self.word(span);
        if digits.is_empty() || !digits.iter().all(u8::is_ascii_digit) {
            return None;
        }
        let value = digits.iter().fold(0usize, |value, digit| {
            value.saturating_mul(10).saturating_add((digit - b'0') as usize)
        });
        (value <= 65_535).then_some(value)
    }

    fn signal(&self, span: Span) -> Option<usize> {
        (0..=15).find(|k| self.is(span, &format!("s{k}")))
    }

    fn name(&self, span: Span) -> Option<usize> {
        (0..=2).find(|u| self.is(span, &format!("u{u}")))
    }

    // Lines.

    /// The two numbers of the first line, with a blank between them.
    fn counts(&self) -> Option<(usize, usize)> {
        let (from, to) = self.whole();
        // The cut is where the first number ends and a blank follows.
        let cuts = (from + 1..to)
            .filter(|&at| !is_blank(self.bytes[at - 1]) && is_blank(self.bytes[at]))
            .filter_map(|at| Some((self.number((from, at))?, self.number((at, to))?)));
        self.only(cuts.collect())
    }

    fn clause(&mut self) -> Option<Clause> {
        let mut ways = vec![];
        for (role, word) in ["assume", "require"].iter().enumerate() {
            let Some(clause) = self.after(word, self.whole()) else { continue };
            for (t, &(word, count)) in TYPES.iter().enumerate() {
                let Some(rest) = self.after(word, clause) else { continue };
                let Some(parts) = self.between("(", ")", rest) else { continue };
                for parts in self.parts(count, parts) {
                    ways.push(Clause { clause_type: t as u8 + 1, role: role as u8, parts });
                }
            }
        }
        self.only(ways)
    }

    /// All ways to read the span as so many parts.
    fn parts(&mut self, count: usize, span: Span) -> Vec<Vec<Part>> {
        if count == 1 {
            return self.part(span).into_iter().map(|part| vec![part]).collect();
        }
        let mut ways = vec![];
        for (first, others) in self.cuts(",", span) {
            let Some(first) = self.part(first) else { continue };
            for others in self.parts(count - 1, others) {
                ways.push([vec![first.clone()], others].concat());
            }
        }
        ways
    }

    fn part(&mut self, span: Span) -> Option<Part> {
        let mut ways = vec![];
        for (root, names) in self.cuts(":", span) {
            for names in self.names(names) {
                if let Some(root) = self.tree(Sort::Formula, root) {
                    ways.push(Part { root, names });
                }
            }
        }
        self.only(ways)
    }

    /// All ways to read the span as names, none of them twice.
    fn names(&self, span: Span) -> Vec<Vec<usize>> {
        let (from, to) = self.trimmed(span);
        if from == to {
            return vec![vec![]];
        }
        let mut ways = vec![];
        for end in (from + 1..=to).filter(|&end| !is_blank(self.bytes[end - 1])) {
            let Some(name) = self.name((from, end)) else { continue };
            for others in self.names((end, to)) {
                if !others.contains(&name) {
                    ways.push([vec![name], others].concat());
                }
            }
        }
        ways
    }

    // Formulas and propositions.

    /// The span read as one of the sort.
    fn tree(&mut self, sort: Sort, span: Span) -> Option<Rc<Tree>> {
        let span = self.trimmed(span);
        if let Some(known) = self.known.get(&(sort, span)) {
            return known.clone();
        }
        let ways = match sort {
            Sort::Formula => self.joined(22, "|", sort, Sort::Conjunction, span),
            Sort::Conjunction => self.joined(21, "&", sort, Sort::Row, span),
            Sort::Row => self.joined(20, "^", sort, Sort::Piece, span),
            Sort::Piece => self.pieces(span),
            Sort::Proposition => self.joined(7, "|", sort, Sort::Both, span),
            Sort::Both => self.joined(6, "&", sort, Sort::Single, span),
            Sort::Single => self.singles(span),
        };
        let tree = self.only(ways);
        self.known.insert((sort, span), tree.clone());
        tree
    }

    /// One of the tighter sort alone, or joined to the right of one of the sort itself.
    fn joined(
        &mut self,
        op: u8,
        sign: &str,
        sort: Sort,
        tighter: Sort,
        span: Span,
    ) -> Vec<Rc<Tree>> {
        let mut ways: Vec<Rc<Tree>> = self.tree(tighter, span).into_iter().collect();
        for (left, right) in self.cuts(sign, span) {
            let Some(left) = self.tree(sort, left) else { continue };
            let Some(right) = self.tree(tighter, right) else { continue };
            ways.push(node(op, 0, Operand(left), Operand(right)));
        }
        ways
    }

    fn pieces(&mut self, span: Span) -> Vec<Rc<Tree>> {
        let mut ways = vec![];
        ways.extend(self.enclosed("(", ")", Sort::Formula, span));
        if let Some(starred) = self.before("*", span) {
            let starred = self.enclosed("(", ")", Sort::Formula, starred);
            ways.extend(starred.map(|f| node(23, 0, Operand(f), Plain(0))));
        }
        let around = [(16, "<", ">"), (17, "[", "]"), (18, "[[", "]]"), (19, "{{", "}}")];
        for (op, open, close) in around {
            let inner = self.enclosed(open, close, Sort::Proposition, span);
            ways.extend(inner.map(|p| node(op, 0, Operand(p), Plain(0))));
        }
        for (q, sign) in COMPARISONS.iter().enumerate() {
            for (measured, number) in self.cuts(sign, span) {
                let Some(number) = self.number(number) else { continue };
                if self.is(measured, "slen") {
                    ways.push(node(24, q, Plain(0), Plain(number)));
                }
                for (op, word) in [(25, "scount"), (26, "sdur")] {
                    let Some(counted) = self.after(word, measured) else { continue };
                    let counted = self.enclosed("(", ")", Sort::Proposition, counted);
                    ways.extend(counted.map(|p| node(op, q, Operand(p), Plain(number))));
                }
            }
        }
        ways.extend(self.symbol(span));
        ways.extend(self.mark(span));
        ways.extend(self.gap(span));
        ways
    }

    /// One of the sort between two signs.
    fn enclosed(&mut self, open: &str, close: &str, sort: Sort, span: Span) -> Option<Rc<Tree>> {
        let inner = self.between(open, close, span)?;
        self.tree(sort, inner)
    }

    /// What stands between the commas in the brackets after the word.
    fn listed(&self, word: &str, span: Span) -> Option<Vec<Span>> {
        let brackets = self.after(word, span)?;
        Some(self.at_commas(self.between("(", ")", brackets)?))
    }

    fn symbol(&self, span: Span) -> Option<Rc<Tree>> {
        let &[q, signal] = &self.listed("draw", span)?[..] else { return None };
        Some(node(27, self.number(q)?, Plain(self.signal(signal)?), Plain(0)))
    }

    fn mark(&self, span: Span) -> Option<Rc<Tree>> {
        let &[name] = &self.listed("at", span)?[..] else { return None };
        Some(node(28, 0, Plain(self.name(name)?), Plain(0)))
    }

    fn gap(&self, span: Span) -> Option<Rc<Tree>> {
        let &[x, y, a, b] = &self.listed("gap", span)?[..] else { return None };
        let q = 16 * self.name(x)? + self.name(y)?;
        Some(node(29, q, Plain(self.number(a)?), Plain(self.number(b)?)))
    }

    fn singles(&mut self, span: Span) -> Vec<Rc<Tree>> {
        let mut ways = vec![];
        ways.extend(self.enclosed("(", ")", Sort::Proposition, span));
        if let Some(negated) = self.after("!", span) {
            let negated = self.tree(Sort::Single, negated);
            ways.extend(negated.map(|p| node(5, 0, Operand(p), Plain(0))));
        }
        ways.extend(self.is(span, "false").then(|| node(1, 0, Plain(0), Plain(0))));
        ways.extend(self.is(span, "true").then(|| node(2, 0, Plain(0), Plain(0))));
        ways.extend(self.signal(span).map(|k| node(3, 0, Plain(k), Plain(0))));
        ways.extend(self.name(span).map(|u| node(4, 0, Plain(u), Plain(0))));
        ways
    }
}

/// Op, q, a and b of a node, its operands numbered.
type Numbered = (u8, usize, usize, usize);

/// Nodes in their order, and the roots of each clause.
fn numbered(typed: &Typed) -> (Vec<Numbered>, Vec<Vec<usize>>) {
    let mut nodes = vec![];
    let roots = typed
        .clauses
        .iter()
        .map(|clause| clause.parts.iter().map(|part| place(&part.root, &mut nodes)).collect())
        .collect();
    (nodes, roots)
}

/// Adds a node after its operands, left before right.
fn place(tree: &Tree, nodes: &mut Vec<Numbered>) -> usize {
    let mut field = |field: &Field| match field {
        Plain(number) => *number,
        Operand(operand) => place(operand, nodes),
    };
    let (a, b) = (field(&tree.a), field(&tree.b));
    nodes.push((tree.op, tree.q, a, b));
    nodes.len() - 1
}

/// A number in a field of one byte; where it is too large, a number that fails 4 and 6 as well.
fn in_a_byte(number: usize) -> u8 {
    number.min(255) as u8
}

fn in_two_bytes(number: usize) -> [u8; 2] {
    [(number / 256) as u8, (number % 256) as u8]
}

fn bytes(typed: &Typed, nodes: &[Numbered], roots: &[Vec<usize>]) -> Vec<u8> {
    let mut rest = vec![1, 1, in_a_byte(typed.signals), in_a_byte(typed.names)];
    rest.extend(in_two_bytes(nodes.len()));
    rest.push(roots.len() as u8);
    for &(op, q, a, b) in nodes {
        rest.extend([op, in_a_byte(q)]);
        rest.extend([in_two_bytes(a), in_two_bytes(b)].concat());
    }
    for (clause, roots) in typed.clauses.iter().zip(roots) {
        rest.extend([clause.clause_type, clause.role]);
        for part in 0..3 {
            rest.extend(in_two_bytes(*roots.get(part).unwrap_or(&0)));
        }
        for part in 0..3 {
            let names = clause.parts.get(part).map_or(&[][..], |part| &part.names);
            rest.push(names.iter().map(|name| 1 << name).sum());
        }
    }
    [in_two_bytes(rest.len()).to_vec(), rest].concat()
}
