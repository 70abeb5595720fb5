//! Random sheets and traces from fixed seeds: plain, drawn as people draw them, typed, and damaged.

#![allow(dead_code)]

pub mod text;

use crate::build::Role::*;
use crate::build::{Compare, Node, Part, Role, Sheet, Trace};
use crate::reference::stored;

/// Marsaglia's xorshift.
pub struct Random(u64);

impl Random {
    pub fn new(seed: u64) -> Self {
        let mut random = Random(seed.wrapping_mul(0x9E37_79B9_7F4A_7C15) | 1);
        for _ in 0..8 {
            random.next();
        }
        random
    }

    pub fn next(&mut self) -> u64 {
        self.0 ^= self.0 << 13;
        self.0 ^= self.0 >> 7;
        self.0 ^= self.0 << 17;
        self.0
    }

    /// A number below `n`.
    pub fn below(&mut self, n: usize) -> usize {
        (self.next() >> 16) as usize % n
    }

    pub fn between(&mut self, least: usize, most: usize) -> usize {
        least + self.below(most - least + 1)
    }

    pub fn one_in(&mut self, n: usize) -> bool {
        self.below(n) == 0
    }

    pub fn pick<T: Copy>(&mut self, from: &[T]) -> T {
        from[self.below(from.len())]
    }
}

/// The names that a node reaches, as a mask.
fn reach(sheet: &Sheet, root: Node) -> u8 {
    let nodes: Vec<stored::Node> = sheet
        .nodes
        .iter()
        .map(|n| stored::Node { op: n[0], q: n[1], a: stored::field(n, 2), b: stored::field(n, 4) })
        .collect();
    stored::reached(&nodes, root.0 as usize).iter().fold(0, |mask, name| mask | 1 << name)
}

/// What a sheet may be like.
#[derive(Clone, Copy)]
pub struct Shape {
    pub signals: usize,
    pub names: usize,
    pub nodes: usize,
    pub clauses: usize,
    /// The numbers that slen, scount, sdur and gaps are compared with stay below this.
    pub numbers: usize,
}

/// A way to draw a sheet.
pub type Draw = fn(&mut Random, Shape) -> Sheet;

/// The ways that take any shape.
pub const DRAWS: [Draw; 3] = [plain, drawn, marked];

/// A sheet of random nodes, later ones preferred as operands.
pub fn plain(random: &mut Random, shape: Shape) -> Sheet {
    let mut sheet = Sheet::new(shape.signals as u8, shape.names as u8);
    let mut propositions: Vec<Node> = vec![];
    let mut formulas: Vec<Node> = vec![];
    while sheet.nodes.len() < shape.nodes {
        let last = sheet.nodes.len() + 1 == shape.nodes;
        if last && formulas.is_empty() {
            formulas.push(plain_leaf(random, &mut sheet, shape));
        } else if propositions.is_empty() || random.one_in(4) {
            propositions.push(proposition(random, &mut sheet, shape, &propositions));
        } else if formulas.is_empty() || random.one_in(2) {
            let p = recent(random, &propositions);
            formulas.push(simple(random, &mut sheet, shape, p));
        } else {
            let (f, g) = (recent(random, &formulas), recent(random, &formulas));
            let op = random.pick(&[20, 20, 20, 21, 22, 23]);
            formulas.push(sheet.node(op, 0, f.0, if op == 23 { 0 } else { g.0 }));
        }
    }
    clauses(random, &mut sheet, shape, &formulas);
    sheet
}

fn recent(random: &mut Random, nodes: &[Node]) -> Node {
    let back = random.below(nodes.len()).min(random.below(nodes.len()));
    nodes[nodes.len() - 1 - back]
}

fn proposition(random: &mut Random, sheet: &mut Sheet, shape: Shape, given: &[Node]) -> Node {
    let choice = random.below(if given.is_empty() { 6 } else { 10 });
    match choice {
        0 => sheet.node(random.between(1, 2) as u8, 0, 0, 0),
        1 | 2 if shape.names > 0 => sheet.name(random.below(shape.names) as u16),
        1..=5 => sheet.signal(random.below(shape.signals) as u16),
        6 | 7 => sheet.not(recent(random, given)),
        _ => {
            let (p, q) = (recent(random, given), recent(random, given));
            sheet.node(random.between(6, 7) as u8, 0, p.0, q.0)
        }
    }
}

/// A formula that needs no operand.
fn plain_leaf(random: &mut Random, sheet: &mut Sheet, shape: Shape) -> Node {
    let number = |random: &mut Random| random.below(shape.numbers) as u16;
    match random.below(if shape.names > 0 { 4 } else { 2 }) {
        0 => sheet.node(24, random.below(5) as u8, 0, number(random)),
        1 => sheet.node(27, random.below(8) as u8, random.below(shape.signals) as u16, 0),
        2 => sheet.mark(random.below(shape.names) as u16),
        _ => {
            let (from, to) = (random.below(shape.names) as u8, random.below(shape.names) as u8);
            let least = number(random);
            sheet.gap(from, to, least, least + number(random))
        }
    }
}

fn simple(random: &mut Random, sheet: &mut Sheet, shape: Shape, p: Node) -> Node {
    match random.below(3) {
        0 => plain_leaf(random, sheet, shape),
        1 => sheet.node(random.between(16, 19) as u8, 0, p.0, 0),
        _ => {
            let op = random.between(25, 26) as u8;
            sheet.node(op, random.below(5) as u8, p.0, random.below(shape.numbers) as u16)
        }
    }
}

fn clauses(random: &mut Random, sheet: &mut Sheet, shape: Shape, formulas: &[Node]) {
    for c in 0..shape.clauses {
        let part = |random: &mut Random, sheet: &Sheet| {
            let root = recent(random, formulas);
            let extra = if random.one_in(4) { random.below(1 << shape.names) as u8 } else { 0 };
            Part(root, reach(sheet, root) | extra)
        };
        let parts = [0; 3].map(|_| part(random, sheet));
        // A first clause that is mostly a commitment, so that verdicts are mixed.
        let role = if random.one_in(if c == 0 { 6 } else { 3 }) { Assumption } else { Commitment };
        let clause_type = random.between(1, 6);
        clause(sheet, clause_type, role, parts);
    }
}

fn clause(sheet: &mut Sheet, clause_type: usize, role: Role, [d1, d2, d3]: [Part; 3]) {
    match clause_type {
        1 => sheet.pref(role, d1),
        2 => sheet.init(role, d1, d2),
        3 => sheet.anti(role, d1),
        4 => sheet.implies(role, d1, d2),
        5 => sheet.follows(role, d1, d2, d3),
        _ => sheet.triggers(role, d1, d2, d3),
    }
}

/// A sheet of waveforms: rows of symbols with marks between them, some names shared among the
/// parts, gaps between names, and conditions on the length.
pub fn drawn(random: &mut Random, shape: Shape) -> Sheet {
    let mut sheet = Sheet::new(shape.signals as u8, shape.names as u8);
    for c in 0..shape.clauses {
        let room = (64 - sheet.nodes.len()) / (shape.clauses - c) / 3;
        let parts = [0; 3].map(|_| {
            let root = waveforms(random, &mut sheet, shape, room);
            Part(root, reach(&sheet, root))
        });
        let role = if random.one_in(if c == 0 { 6 } else { 3 }) { Assumption } else { Commitment };
        let clause_type = random.between(1, 6);
        clause(&mut sheet, clause_type, role, parts);
    }
    sheet
}

fn waveforms(random: &mut Random, sheet: &mut Sheet, shape: Shape, room: usize) -> Node {
    let end = sheet.nodes.len() + room.max(1);
    let mut root = waveform(random, sheet, shape, (room / 2).max(1));
    while sheet.nodes.len() + 6 < end {
        let other = match random.below(4) {
            0 if shape.names > 0 => {
                let (from, to) = (random.below(shape.names) as u8, random.below(shape.names) as u8);
                let least = random.below(shape.numbers) as u16;
                sheet.gap(from, to, least, least + random.below(shape.numbers) as u16)
            }
            1 => {
                let number = random.below(shape.numbers) as u16;
                sheet.node(24, random.below(5) as u8, 0, number)
            }
            _ => {
                let room = end - sheet.nodes.len() - 1;
                waveform(random, sheet, shape, room)
            }
        };
        root = sheet.both(root, other);
        if random.one_in(3) {
            break;
        }
    }
    root
}

fn waveform(random: &mut Random, sheet: &mut Sheet, shape: Shape, room: usize) -> Node {
    let k = random.below(shape.signals) as u16;
    let symbol = |random: &mut Random, sheet: &mut Sheet| {
        // Runs are commoner, as in the published drawings.
        let q = random.pick(&[0, 1, 2, 3, 4, 4, 5, 5, 6, 6, 7]);
        sheet.node(27, q, k, 0)
    };
    let mut row = symbol(random, sheet);
    let mut used = 1;
    while used + 2 <= room && !random.one_in(6) {
        let next = if shape.names > 0 && random.one_in(3) {
            sheet.mark(random.below(shape.names) as u16)
        } else {
            symbol(random, sheet)
        };
        row = sheet.chop(row, next);
        used += 2;
    }
    row
}

/// A sheet of one commitment whose parts say little but where names are marked, so that premises
/// hold often and the answer turns on which placements agree.
pub fn marked(random: &mut Random, shape: Shape) -> Sheet {
    alone(random, shape, marked_clause)
}

pub fn marked_clause(random: &mut Random, sheet: &mut Sheet, shape: Shape) {
    let parts = [0; 3].map(|_| {
        let mut root = about_marks(random, sheet, shape);
        while random.one_in(2) {
            let other = about_marks(random, sheet, shape);
            let op = random.pick(&[20, 21, 21, 22]);
            root = sheet.node(op, 0, root.0, other.0);
        }
        let extra = if random.one_in(3) { random.below(1 << shape.names) as u8 } else { 0 };
        Part(root, reach(sheet, root) | extra)
    });
    let clause_type = random.pick(&[1, 2, 2, 3, 4, 4, 5, 5, 5, 6, 6, 6]);
    clause(sheet, clause_type, Commitment, parts);
}

/// A sheet of one commitment whose parts list one another's names, most of them short, so that names
/// lie before, in and after the intervals of later parts.
pub fn shared(random: &mut Random, shape: Shape) -> Sheet {
    alone(random, shape, shared_clause)
}

pub fn shared_clause(random: &mut Random, sheet: &mut Sheet, shape: Shape) {
    let listed = random.between(1, (1 << shape.names) - 1) as u8;
    let parts = [0; 3].map(|_| {
        let mut root = sheet.node(24, random.pick(&[1, 2, 2, 3]), 0, random.below(3) as u16);
        if random.one_in(2) {
            let marks = about_marks(random, sheet, shape);
            root = sheet.node(random.pick(&[20, 21, 21, 21]), 0, root.0, marks.0);
        }
        Part(root, reach(sheet, root) | listed)
    });
    let clause_type = random.pick(&[2, 2, 4, 5, 5, 5, 6, 6, 6]);
    clause(sheet, clause_type, Commitment, parts);
}

/// A clause of clocks and replies: after one signal a reply is due sooner than after another, so that
/// what starts earlier may be broken later. The reply is the last signal. A clock may end in a named
/// cycle, and what is said beside the reply may speak of it.
pub fn timed_clause(random: &mut Random, sheet: &mut Sheet, shape: Shape) {
    let part = |sheet: &Sheet, root: Node| Part(root, reach(sheet, root));
    let clause_type = random.between(1, 6);
    if clause_type == 1 {
        let early = sheet.slen(Compare::AtMost, random.below(shape.numbers) as u16);
        let replied = reply(random, sheet, shape);
        let root = sheet.either(early, replied);
        return sheet.pref(Commitment, part(sheet, root));
    }
    let start = clocks(random, sheet, shape);
    let start = part(sheet, start);
    if clause_type == 3 {
        return sheet.anti(Commitment, start);
    }
    let due = reply(random, sheet, shape);
    let due = part(sheet, due);
    match clause_type {
        2 => sheet.init(Commitment, due, start),
        4 => sheet.implies(Commitment, start, due),
        _ => {
            let limit = if random.one_in(2) {
                clocks(random, sheet, shape)
            } else {
                sheet.slen(Compare::Equal, random.below(shape.numbers) as u16)
            };
            clause(sheet, clause_type, Commitment, [start, due, part(sheet, limit)]);
        }
    }
}

fn clocks(random: &mut Random, sheet: &mut Sheet, shape: Shape) -> Node {
    // Two signals where there are two beside the reply.
    let signals = (shape.signals - 1).max(1);
    let (first, short) = (random.below(signals), random.below(shape.numbers));
    let (second, long) = ((first + 1) % signals, short + random.between(1, shape.numbers));
    let [one, other] = [(first, short), (second, long)].map(|(k, length)| {
        let signal = sheet.signal(k as u16);
        let start = sheet.point(signal);
        let length = sheet.slen(Compare::Equal, length as u16);
        let clock = sheet.both(start, length);
        if shape.names == 0 || random.one_in(2) {
            return clock;
        }
        let mark = sheet.mark(random.below(shape.names) as u16);
        sheet.chop(clock, mark)
    });
    sheet.either(one, other)
}

fn reply(random: &mut Random, sheet: &mut Sheet, shape: Shape) -> Node {
    let signal = sheet.signal(shape.signals as u16 - 1);
    let replied = sheet.scount(signal, Compare::AtLeast, 1);
    if random.one_in(2) {
        return replied;
    }
    let other = about_marks(random, sheet, shape);
    sheet.node(random.between(21, 22) as u8, 0, replied.0, other.0)
}

/// A way to draw one clause, with the nodes of its parts.
pub type DrawClause = fn(&mut Random, &mut Sheet, Shape);

fn alone(random: &mut Random, shape: Shape, draw: DrawClause) -> Sheet {
    let mut sheet = Sheet::new(shape.signals as u8, shape.names as u8);
    draw(random, &mut sheet, shape);
    sheet
}

/// A sheet of such clauses, as many as its shape has or there is room for.
pub fn several(random: &mut Random, shape: Shape, draw: DrawClause) -> Sheet {
    let mut sheet = Sheet::new(shape.signals as u8, shape.names as u8);
    while sheet.clauses.len() < shape.clauses {
        let mut longer = sheet.clone();
        draw(random, &mut longer, shape);
        if longer.nodes.len() <= 64 {
            sheet = longer;
        } else if !sheet.clauses.is_empty() {
            break;
        }
    }
    sheet
}

fn about_marks(random: &mut Random, sheet: &mut Sheet, shape: Shape) -> Node {
    let number = |random: &mut Random| random.below(shape.numbers) as u16;
    if shape.names == 0 || random.one_in(4) {
        return match random.below(3) {
            0 => sheet.node(24, random.below(5) as u8, 0, number(random)),
            1 => sheet.node(27, random.below(8) as u8, random.below(shape.signals) as u16, 0),
            _ => {
                let p = sheet.signal(random.below(shape.signals) as u16);
                sheet.point(p)
            }
        };
    }
    let u = random.below(shape.names) as u16;
    match random.below(8) {
        0 => sheet.mark(u),
        1 => {
            let (any, mark) = (sheet.anywhere(), sheet.mark(u));
            sheet.chop(any, mark)
        }
        2 => {
            let (mark, any) = (sheet.mark(u), sheet.anywhere());
            sheet.chop(mark, any)
        }
        3 => {
            let name = sheet.name(u);
            let count = random.below(2) as u16;
            sheet.node(25, random.below(5) as u8, name.0, count)
        }
        4 => {
            let name = sheet.name(u);
            sheet.node(random.between(16, 19) as u8, 0, name.0, 0)
        }
        5 => {
            let name = sheet.name(u);
            let not = sheet.not(name);
            sheet.node(random.between(16, 19) as u8, 0, not.0, 0)
        }
        _ => {
            let v = random.below(shape.names) as u8;
            let least = number(random) / 2;
            sheet.gap(u as u8, v, least, least + number(random))
        }
    }
}

/// A drawn sheet with some of its clauses, at least one, turned to advice. The draws themselves give
/// assumptions and commitments alone.
pub fn advised(random: &mut Random, sheet: &Sheet) -> Sheet {
    sheet.with_advice(random.between(1, sheet.all_clauses() as usize) as u8)
}

/// A drawn sheet with the role of each clause drawn anew.
pub fn in_any_role(random: &mut Random, sheet: &Sheet) -> Sheet {
    let mut sheet = sheet.clone();
    for clause in &mut sheet.clauses {
        clause[1] = random.pick(&[Assumption, Commitment, Commitment, Advice]) as u8;
    }
    sheet
}

/// A trace whose signals mostly keep their value from cycle to cycle.
pub fn trace(random: &mut Random, signals: usize, cycles: usize) -> Trace {
    let mut word = random.next() as u16;
    let steadiness = random.between(1, 5);
    let words: Vec<u16> = (0..cycles)
        .map(|_| {
            for k in 0..signals {
                if random.one_in(steadiness) {
                    word ^= 1 << k;
                }
            }
            word & ((1u32 << signals) - 1) as u16
        })
        .collect();
    Trace::new(signals as u8, &words)
}

/// A trace whose signals are high now and then.
pub fn events(random: &mut Random, signals: usize, cycles: usize) -> Trace {
    let rareness = random.between(3, 9);
    let mut word = || (0..signals).map(|k| (random.one_in(rareness) as u16) << k).sum();
    let words: Vec<u16> = (0..cycles).map(|_| word()).collect();
    Trace::new(signals as u8, &words)
}

/// A feed that a sound board refuses: the cycle with a bit from s up, too few lent words, or both.
pub fn refused_feed(random: &mut Random, signals: usize, cycle: u16) -> (u16, usize) {
    let over = if signals < 16 { 1 << random.between(signals, 15) } else { 0 };
    let few = random.pick(&[0, 64, 4095]);
    // Without a signal to spare no cycle has a bit too many.
    match random.below(if over == 0 { 1 } else { 3 }) {
        0 => (cycle, few),
        1 => (cycle | over, 4096),
        _ => (cycle | over, few),
    }
}

/// Bytes changed in one or two places: any field, to any value or a value nearby; or cut, or longer.
pub fn damaged(random: &mut Random, bytes: &[u8]) -> Vec<u8> {
    let mut bytes = bytes.to_vec();
    for _ in 0..random.between(1, 2) {
        match random.below(12) {
            0 => bytes.truncate(random.below(bytes.len() + 1)),
            1 => bytes.extend((0..random.between(1, 12)).map(|_| random.next() as u8)),
            2 => {
                // Cut or longer, and the length field says so.
                let length = random.below(bytes.len() + 12).max(2);
                bytes.resize(length, 0);
                bytes[..2].copy_from_slice(&(length as u16 - 2).to_be_bytes());
            }
            3..=5 if bytes.len() > 1 => {
                // One byte of the header.
                let at = random.below(bytes.len().min(9));
                bytes[at] = changed(random, bytes[at]);
            }
            _ if !bytes.is_empty() => {
                let at = random.below(bytes.len());
                bytes[at] = changed(random, bytes[at]);
            }
            _ => (),
        }
    }
    bytes
}

fn changed(random: &mut Random, byte: u8) -> u8 {
    match random.below(5) {
        0 => byte.wrapping_add(1),
        1 => byte.wrapping_sub(1),
        2 => byte ^ 1 << random.below(8),
        3 => random.below(32) as u8,
        _ => random.next() as u8,
    }
}
