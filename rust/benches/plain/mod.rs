//! A plain bit-parallel checker without proofs: the obvious fast algorithm, against which the
//! library's speed is measured. A table of 64 rows a node under one placement of the names; the
//! names that a clause quantifies universally move in the outer loops, and a node is computed again
//! only if a name that it reaches was moved. It reads accepted sheets and traces. Beside it a plain
//! reader of typed sheets.

#![allow(dead_code, clippy::needless_range_loop)]

pub mod text;

#[derive(Clone, Copy, Debug, PartialEq, Eq)]
pub enum Finding {
    Holds,
    Excused(usize),
    Broken(usize, usize, usize, usize),
}

#[derive(Clone, Copy, Debug, PartialEq, Eq)]
pub struct Verdict {
    pub finding: Finding,
    /// Bit k is set if clause k is advice and fails.
    pub advice: u8,
}

#[derive(Clone, Copy)]
struct Node {
    op: u8,
    q: u8,
    a: usize,
    b: usize,
}

struct Clause {
    clause_type: u8,
    role: u8,
    roots: [usize; 3],
    masks: [u8; 3],
}

type Rows = [u64; 64];

pub struct Checker {
    nodes: Vec<Node>,
    reach: Vec<u8>,
    clauses: Vec<Clause>,
    cycles: usize,
    names: usize,
    signals: [u64; 16],
    tables: Vec<Rows>,
    placed: [usize; 3],
}

fn field(bytes: &[u8], at: usize) -> usize {
    bytes[at] as usize * 256 + bytes[at + 1] as usize
}

/// The bits from `from` up.
fn from_bit(from: usize) -> u64 {
    if from < 64 {
        u64::MAX << from
    } else {
        0
    }
}

/// The bits below `below`.
fn below_bit(below: usize) -> u64 {
    !from_bit(below)
}

/// A bit in every node's reach, for the first fill.
const FIRST: u8 = 8;

impl Checker {
    pub fn new(sheet: &[u8], trace: &[u8]) -> Self {
        let n = field(sheet, 6);
        let nodes: Vec<Node> = (0..n)
            .map(|i| {
                let at = 9 + 6 * i;
                let (a, b) = (field(sheet, at + 2), field(sheet, at + 4));
                Node { op: sheet[at], q: sheet[at + 1], a, b }
            })
            .collect();
        let mut reach: Vec<u8> = vec![];
        for node in &nodes {
            reach.push(match node.op {
                4 | 28 => FIRST | 1 << node.a,
                29 => FIRST | 1 << (node.q / 16) | 1 << (node.q % 16),
                5 | 16..=19 | 23 | 25 | 26 => reach[node.a],
                6 | 7 | 20..=22 => reach[node.a] | reach[node.b],
                _ => FIRST,
            });
        }
        let clauses = (0..sheet[8] as usize)
            .map(|i| {
                let at = 9 + 6 * n + 11 * i;
                Clause {
                    clause_type: sheet[at],
                    role: sheet[at + 1],
                    roots: [2, 4, 6].map(|off| field(sheet, at + off)),
                    masks: [8, 9, 10].map(|off| sheet[at + off]),
                }
            })
            .collect();
        let cycles = (trace.len() - 4) / 2;
        let mut signals = [0; 16];
        for t in 0..cycles {
            let word = field(trace, 4 + 2 * t);
            for (k, column) in signals.iter_mut().enumerate() {
                *column |= ((word >> k & 1) as u64) << t;
            }
        }
        let tables = vec![[0; 64]; n];
        let names = sheet[5] as usize;
        Checker { nodes, reach, clauses, cycles, names, signals, tables, placed: [0; 3] }
    }

    pub fn table(&mut self, node: usize, cycles: [usize; 3]) -> Rows {
        self.placed[..self.names].copy_from_slice(&cycles[..self.names]);
        self.fill(FIRST);
        self.tables[node]
    }

    fn fill(&mut self, moved: u8) {
        for i in 0..self.nodes.len() {
            if self.reach[i] & moved != 0 {
                self.fill_node(i);
            }
        }
    }

    fn fill_node(&mut self, i: usize) {
        let Node { op, q, a, b } = self.nodes[i];
        let cycles = self.cycles;
        let trace = below_bit(cycles);
        let (before, here) = self.tables.split_at_mut(i);
        let rows = &mut here[0];
        match op {
            1 => rows[0] = 0,
            2 => rows[0] = trace,
            3 => rows[0] = self.signals[a],
            4 => rows[0] = 1 << self.placed[a],
            5 => rows[0] = !before[a][0] & trace,
            6 => rows[0] = before[a][0] & before[b][0],
            7 => rows[0] = before[a][0] | before[b][0],
            16 => {
                for (t, row) in rows[..cycles].iter_mut().enumerate() {
                    *row = if before[a][0] >> t & 1 == 1 { from_bit(t) & trace } else { 0 };
                }
            }
            17 => stretch(rows, before[a][0], cycles),
            18 => {
                for (t, row) in rows[..cycles].iter_mut().enumerate() {
                    let run = (before[a][0] >> t).trailing_ones() as usize;
                    *row = from_bit(t) & below_bit(t + run) & trace;
                }
            }
            19 => unit(rows, before[a][0], cycles),
            20 => {
                let mut joined = Joined::default();
                for t in (0..cycles).rev() {
                    let ends = before[a][t];
                    rows[t] = if ends == 0 { 0 } else { joined.join(ends, &before[b]) };
                }
            }
            21 => {
                for t in 0..cycles {
                    rows[t] = before[a][t] & before[b][t];
                }
            }
            22 => {
                for t in 0..cycles {
                    rows[t] = before[a][t] | before[b][t];
                }
            }
            23 => {
                let mut joined = Joined::default();
                for t in (0..cycles).rev() {
                    rows[t] = 1 << t | joined.join(before[a][t] & from_bit(t + 1), rows);
                }
            }
            24 => {
                for (t, row) in rows[..cycles].iter_mut().enumerate() {
                    let ends = passing(q, || from_bit(t + b), || from_bit(t + b + 1));
                    *row = from_bit(t) & trace & ends;
                }
            }
            25 => counted(rows, before[a][0], 1, q, b, cycles),
            26 => counted(rows, before[a][0], 0, q, b, cycles),
            27 => {
                let high = self.signals[a];
                let low = !high & trace;
                match q {
                    0 => unit(rows, low, cycles),
                    1 => unit(rows, high, cycles),
                    2 | 3 => unit(rows, trace, cycles),
                    4 => stretch(rows, low, cycles),
                    5 => stretch(rows, high, cycles),
                    6 => stretch(rows, trace, cycles),
                    _ => {
                        let mut other = [0; 64];
                        stretch(rows, low, cycles);
                        stretch(&mut other, high, cycles);
                        for t in 0..cycles {
                            rows[t] |= other[t];
                        }
                    }
                }
            }
            28 => {
                rows[..cycles].fill(0);
                rows[self.placed[a]] = 1 << self.placed[a];
            }
            29 => {
                let (x, y) = (self.placed[(q / 16) as usize], self.placed[(q % 16) as usize]);
                rows[..cycles].fill(0);
                if x <= y && a <= y - x && y - x <= b {
                    rows[..=x].fill(from_bit(y) & trace);
                }
            }
            _ => unreachable!(),
        }
    }

    /// Row x of a part, only the intervals that hold the cycles of the names.
    fn inside(&self, row: u64, names: u8, x: usize) -> u64 {
        let mut row = row;
        for u in 0..3 {
            if names >> u & 1 == 1 {
                row &= if self.placed[u] < x { 0 } else { from_bit(self.placed[u]) };
            }
        }
        row
    }

    /// The least of the places i · 4096 + j · 64 + k where the clause breaks.
    fn first_broken(&mut self, c: usize) -> Option<usize> {
        let clause = &self.clauses[c];
        let [m1, m2, m3] = clause.masks;
        let (universal, answering) = match clause.clause_type {
            1 => (0, m1),
            2 => (m2, m1),
            3 => (m1, 0),
            4 => (m1, m2),
            _ => (m1 | m3, m2),
        };
        let outer: Vec<usize> = (0..3).filter(|u| universal >> u & 1 == 1).collect();
        let inner: Vec<usize> = (0..3).filter(|u| (answering & !universal) >> u & 1 == 1).collect();
        let mut best = usize::MAX;
        self.start(&outer);
        loop {
            self.unanswered(c, &inner, &mut best);
            if !self.advance(&outer) {
                break;
            }
        }
        (best != usize::MAX).then_some(best)
    }

    fn start(&mut self, names: &[usize]) {
        let mut moved = 0;
        for &u in names {
            self.placed[u] = 0;
            moved |= 1 << u;
        }
        if moved != 0 {
            self.fill(moved);
        }
    }

    /// The next placement, the last name fastest.
    fn advance(&mut self, names: &[usize]) -> bool {
        let mut moved = 0;
        for &u in names.iter().rev() {
            moved |= 1 << u;
            self.placed[u] += 1;
            if self.placed[u] < self.cycles {
                self.fill(moved);
                return true;
            }
            self.placed[u] = 0;
        }
        false
    }

    /// The answers over the placements of the names that no part before lists.
    fn answers(&mut self, root: usize, inner: &[usize]) -> Rows {
        let names = inner.iter().fold(0, |names, u| names | 1 << u);
        let mut answers = [0; 64];
        self.start(inner);
        loop {
            for x in 0..self.cycles {
                answers[x] |= self.inside(self.tables[root][x], names, x);
            }
            if !self.advance(inner) {
                return answers;
            }
        }
    }

    fn unanswered(&mut self, c: usize, inner: &[usize], best: &mut usize) {
        let Clause { clause_type, roots, masks, .. } = self.clauses[c];
        let cycles = self.cycles;
        match clause_type {
            1 => {
                let missing = !self.answers(roots[0], inner)[0] & below_bit(cycles);
                if missing != 0 {
                    *best = (*best).min(65 * missing.trailing_zeros() as usize);
                }
            }
            2 => {
                let premise = self.inside(self.tables[roots[1]][0], masks[1], 0);
                if premise != 0 {
                    let answered = self.answers(roots[0], inner)[0];
                    let early = premise & below_bit(answered.trailing_zeros() as usize);
                    if early != 0 {
                        *best = (*best).min(65 * early.trailing_zeros() as usize);
                    }
                }
            }
            3 | 4 => {
                let mut first = [0; 64];
                for i in 0..cycles {
                    first[i] = self.inside(self.tables[roots[0]][i], masks[0], i);
                }
                if first.iter().all(|&row| row == 0) {
                    return;
                }
                let answers =
                    if clause_type == 3 { [0; 64] } else { self.answers(roots[1], inner) };
                for i in 0..cycles {
                    let open = first[i] & !answers[i];
                    if open != 0 {
                        *best = (*best).min(4096 * i + 65 * open.trailing_zeros() as usize);
                        return;
                    }
                }
            }
            _ => self.unanswered_limited(c, inner, best),
        }
    }

    fn unanswered_limited(&mut self, c: usize, inner: &[usize], best: &mut usize) {
        let Clause { clause_type, roots, masks, .. } = self.clauses[c];
        let cycles = self.cycles;
        let mut first = [0; 64];
        let mut third = [0; 64];
        for x in 0..cycles {
            first[x] = self.inside(self.tables[roots[0]][x], masks[0], x);
            let row = self.tables[roots[2]][x];
            third[x] = self.inside(row & row.wrapping_neg(), masks[2] & !masks[0], x);
        }
        if first.iter().all(|&row| row == 0) || third.iter().all(|&row| row == 0) {
            return;
        }
        let answers = self.answers(roots[1], inner);
        for i in 0..cycles {
            let mut ends = first[i];
            while ends != 0 {
                let j = ends.trailing_zeros() as usize;
                ends &= ends - 1;
                let x = if clause_type == 5 { j } else { i };
                if third[x] != 0 {
                    let k = third[x].trailing_zeros() as usize;
                    if answers[x] & below_bit(k + 1) == 0 {
                        *best = (*best).min(4096 * i + 64 * j + k);
                        return;
                    }
                }
            }
        }
    }

    pub fn check(&mut self) -> Verdict {
        self.placed = [0; 3];
        self.fill(FIRST);
        Verdict { finding: self.finding(), advice: self.advice() }
    }

    fn finding(&mut self) -> Finding {
        for c in 0..self.clauses.len() {
            if self.clauses[c].role == 0 && self.first_broken(c).is_some() {
                return Finding::Excused(c);
            }
        }
        for c in 0..self.clauses.len() {
            if self.clauses[c].role == 1 {
                if let Some(place) = self.first_broken(c) {
                    return Finding::Broken(c, place / 4096, place / 64 % 64, place % 64);
                }
            }
        }
        Finding::Holds
    }

    fn advice(&mut self) -> u8 {
        let mut advice = 0;
        for c in 0..self.clauses.len() {
            if self.clauses[c].role == 2 && self.first_broken(c).is_some() {
                advice |= 1 << c;
            }
        }
        advice
    }
}

/// Rows of [column].
fn stretch(rows: &mut Rows, column: u64, cycles: usize) {
    for (t, row) in rows[..cycles].iter_mut().enumerate() {
        let run = (column >> t).trailing_ones() as usize;
        *row = from_bit(t) & below_bit(t + run + 1) & below_bit(cycles);
    }
}

/// Rows of {{column}}.
fn unit(rows: &mut Rows, column: u64, cycles: usize) {
    for (t, row) in rows[..cycles].iter_mut().enumerate() {
        *row = if t + 1 < cycles { (column >> t & 1) << (t + 1) } else { 0 };
    }
}

/// What the rows that start at the ends of one row join. It is kept for the next row, which joins only what
/// it has besides where it has all these ends.
#[derive(Default)]
struct Joined {
    had: u64,
    kept: u64,
}

impl Joined {
    fn join(&mut self, ends: u64, rows: &Rows) -> u64 {
        let mut left = ends;
        if self.had & ends == self.had {
            left ^= self.had;
        } else {
            self.kept = 0;
        }
        while left != 0 {
            self.kept |= rows[left.trailing_zeros() as usize];
            left &= left - 1;
        }
        self.had = ends;
        self.kept
    }
}

/// The ends that a comparison takes, from those where the number is reached and those where it is passed.
fn passing(q: u8, reached: impl Fn() -> u64, passed: impl Fn() -> u64) -> u64 {
    match q {
        0 => !reached(),
        1 => !passed(),
        2 => reached() & !passed(),
        3 => reached(),
        _ => passed(),
    }
}

/// Rows of a count, the last cycle counted if `last` is 1.
fn counted(rows: &mut Rows, column: u64, last: usize, q: u8, number: usize, cycles: usize) {
    for (t, row) in rows[..cycles].iter_mut().enumerate() {
        let more_than = |number: usize| {
            let mut left = column & from_bit(t);
            if left.count_ones() as usize <= number {
                return 0;
            }
            for _ in 0..number {
                left &= left - 1;
            }
            from_bit(left.trailing_zeros() as usize + 1 - last)
        };
        let at_least = || if number == 0 { u64::MAX } else { more_than(number - 1) };
        let ends = passing(q, at_least, || more_than(number));
        *row = from_bit(t) & below_bit(cycles) & ends;
    }
}
