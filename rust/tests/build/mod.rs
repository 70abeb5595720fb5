//! Sheets and traces built readably, and their bytes.

#![allow(dead_code)]

use std::fmt::Write;

/// A node of a sheet, by its number.
#[derive(Clone, Copy, Debug, PartialEq, Eq)]
pub struct Node(pub u16);

#[derive(Clone, Copy, Debug)]
pub enum Compare {
    Less,
    AtMost,
    Equal,
    AtLeast,
    More,
}

/// The symbols of drawings; `Either` and `Unknown` are the published 2 and x, a `Run` is a symbol
/// with the stutter bar.
#[derive(Clone, Copy, Debug)]
pub enum Symbol {
    Low,
    High,
    Either,
    Unknown,
    LowRun,
    HighRun,
    EitherRun,
    SteadyRun,
}

#[derive(Clone, Copy, Debug, PartialEq, Eq)]
pub enum Role {
    Assumption,
    Commitment,
    Advice,
}

/// A root with the mask of its names.
#[derive(Clone, Copy, Debug)]
pub struct Part(pub Node, pub u8);

/// A sheet whose counts and length field can be set apart from what it holds, for damage.
#[derive(Clone, Debug)]
pub struct Sheet {
    pub version: u8,
    pub kind: u8,
    pub signals: u8,
    pub names: u8,
    pub nodes: Vec<[u8; 6]>,
    pub clauses: Vec<[u8; 11]>,
    /// Added to bytes 0–1, to bytes 6–7 and to byte 8.
    pub length_off: i32,
    pub nodes_off: i32,
    pub clauses_off: i32,
    /// What follows the clauses.
    pub tail: Vec<u8>,
    /// The bytes end here, whatever the counts say.
    pub cut: Option<usize>,
}

impl Sheet {
    pub fn new(signals: u8, names: u8) -> Self {
        Sheet {
            version: 1,
            kind: 1,
            signals,
            names,
            nodes: vec![],
            clauses: vec![],
            length_off: 0,
            nodes_off: 0,
            clauses_off: 0,
            tail: vec![],
            cut: None,
        }
    }

    pub fn node(&mut self, op: u8, q: u8, a: u16, b: u16) -> Node {
        let ([a0, a1], [b0, b1]) = (a.to_be_bytes(), b.to_be_bytes());
        self.nodes.push([op, q, a0, a1, b0, b1]);
        Node(self.nodes.len() as u16 - 1)
    }

    // Propositions.

    pub fn falsity(&mut self) -> Node {
        self.node(1, 0, 0, 0)
    }
    pub fn truth(&mut self) -> Node {
        self.node(2, 0, 0, 0)
    }
    pub fn signal(&mut self, k: u16) -> Node {
        self.node(3, 0, k, 0)
    }
    pub fn name(&mut self, u: u16) -> Node {
        self.node(4, 0, u, 0)
    }
    pub fn not(&mut self, p: Node) -> Node {
        self.node(5, 0, p.0, 0)
    }
    pub fn and(&mut self, p: Node, q: Node) -> Node {
        self.node(6, 0, p.0, q.0)
    }
    pub fn or(&mut self, p: Node, q: Node) -> Node {
        self.node(7, 0, p.0, q.0)
    }
    /// p implies q.
    pub fn only_with(&mut self, p: Node, q: Node) -> Node {
        let not_p = self.not(p);
        self.or(not_p, q)
    }

    // Formulas.

    /// ⟨p⟩
    pub fn point(&mut self, p: Node) -> Node {
        self.node(16, 0, p.0, 0)
    }
    /// [p]
    pub fn stretch(&mut self, p: Node) -> Node {
        self.node(17, 0, p.0, 0)
    }
    /// [[p]]
    pub fn whole(&mut self, p: Node) -> Node {
        self.node(18, 0, p.0, 0)
    }
    /// {{p}}
    pub fn unit(&mut self, p: Node) -> Node {
        self.node(19, 0, p.0, 0)
    }
    pub fn chop(&mut self, f: Node, g: Node) -> Node {
        self.node(20, 0, f.0, g.0)
    }
    pub fn both(&mut self, f: Node, g: Node) -> Node {
        self.node(21, 0, f.0, g.0)
    }
    pub fn either(&mut self, f: Node, g: Node) -> Node {
        self.node(22, 0, f.0, g.0)
    }
    pub fn star(&mut self, f: Node) -> Node {
        self.node(23, 0, f.0, 0)
    }
    pub fn slen(&mut self, compare: Compare, n: u16) -> Node {
        self.node(24, compare as u8, 0, n)
    }
    pub fn scount(&mut self, p: Node, compare: Compare, n: u16) -> Node {
        self.node(25, compare as u8, p.0, n)
    }
    pub fn sdur(&mut self, p: Node, compare: Compare, n: u16) -> Node {
        self.node(26, compare as u8, p.0, n)
    }
    pub fn symbol(&mut self, symbol: Symbol, k: u16) -> Node {
        self.node(27, symbol as u8, k, 0)
    }
    /// Name u marked, at a point.
    pub fn mark(&mut self, u: u16) -> Node {
        self.node(28, 0, u, 0)
    }
    pub fn gap(&mut self, from: u8, to: u8, least: u16, most: u16) -> Node {
        self.node(29, 16 * from + to, least, most)
    }
    /// The formulas joined by chop, from the left.
    pub fn row(&mut self, parts: &[Node]) -> Node {
        let mut row = parts[0];
        for &part in &parts[1..] {
            row = self.chop(row, part);
        }
        row
    }
    /// Any interval.
    pub fn anywhere(&mut self) -> Node {
        self.slen(Compare::AtLeast, 0)
    }

    // Kind 2 only.

    pub fn negation(&mut self, f: Node) -> Node {
        self.node(30, 0, f.0, 0)
    }
    pub fn some(&mut self, u: u16, f: Node) -> Node {
        self.node(31, 0, f.0, u)
    }

    // Clauses.

    fn clause(&mut self, clause_type: u8, role: Role, parts: &[Part]) {
        let mut clause = [0; 11];
        clause[0] = clause_type;
        clause[1] = role as u8;
        for (p, Part(root, names)) in parts.iter().enumerate() {
            clause[2 + 2 * p..4 + 2 * p].copy_from_slice(&root.0.to_be_bytes());
            clause[8 + p] = *names;
        }
        self.clauses.push(clause);
    }
    pub fn pref(&mut self, role: Role, d1: Part) {
        self.clause(1, role, &[d1]);
    }
    pub fn init(&mut self, role: Role, d1: Part, d2: Part) {
        self.clause(2, role, &[d1, d2]);
    }
    pub fn anti(&mut self, role: Role, d1: Part) {
        self.clause(3, role, &[d1]);
    }
    pub fn implies(&mut self, role: Role, d1: Part, d2: Part) {
        self.clause(4, role, &[d1, d2]);
    }
    pub fn follows(&mut self, role: Role, d1: Part, d2: Part, d3: Part) {
        self.clause(5, role, &[d1, d2, d3]);
    }
    pub fn triggers(&mut self, role: Role, d1: Part, d2: Part, d3: Part) {
        self.clause(6, role, &[d1, d2, d3]);
    }

    /// The same sheet with the clauses of a set, bit k for clause k, turned to advice.
    pub fn with_advice(&self, set: u8) -> Sheet {
        let mut sheet = self.clone();
        for (k, clause) in sheet.clauses.iter_mut().enumerate() {
            if set >> k & 1 == 1 {
                clause[1] = Role::Advice as u8;
            }
        }
        sheet
    }

    /// The same sheet with the clauses of a set cut out.
    pub fn without(&self, set: u8) -> Sheet {
        let left = (0..self.clauses.len()).filter(|k| set >> k & 1 == 0);
        Sheet { clauses: left.map(|k| self.clauses[k]).collect(), ..self.clone() }
    }

    /// All clauses of the sheet, as a set.
    pub fn all_clauses(&self) -> u8 {
        (0..self.clauses.len()).map(|k| 1 << k).sum()
    }

    pub fn bytes(&self) -> Vec<u8> {
        let nodes = (self.nodes.len() as i32 + self.nodes_off) as u16;
        let clauses = (self.clauses.len() as i32 + self.clauses_off) as u8;
        let mut bytes = vec![0, 0, self.version, self.kind, self.signals, self.names];
        bytes.extend(nodes.to_be_bytes());
        bytes.push(clauses);
        bytes.extend(self.nodes.iter().flatten());
        bytes.extend(self.clauses.iter().flatten());
        bytes.extend(&self.tail);
        bytes.truncate(self.cut.unwrap_or(usize::MAX));
        set_length(&mut bytes, self.length_off);
        bytes
    }
}

/// A trace whose fields can be set apart from what it holds, for damage.
#[derive(Clone, Debug)]
pub struct Trace {
    pub version: u8,
    pub signals: u8,
    pub cycles: Vec<u16>,
    pub length_off: i32,
    pub tail: Vec<u8>,
    pub cut: Option<usize>,
}

impl Trace {
    pub fn new(signals: u8, cycles: &[u16]) -> Self {
        let cycles = cycles.to_vec();
        Trace { version: 1, signals, cycles, length_off: 0, tail: vec![], cut: None }
    }

    /// A row of '0' and '1' for each signal, all as long as the trace; blanks are skipped.
    pub fn drawn(rows: &[&str]) -> Self {
        let rows: Vec<Vec<char>> =
            rows.iter().map(|row| row.chars().filter(|c| !c.is_whitespace()).collect()).collect();
        let mut cycles = vec![0; rows[0].len()];
        for (k, row) in rows.iter().enumerate() {
            assert_eq!(row.len(), cycles.len(), "row {k}");
            for (cycle, &symbol) in cycles.iter_mut().zip(row) {
                assert!(symbol == '0' || symbol == '1');
                *cycle |= ((symbol == '1') as u16) << k;
            }
        }
        Trace::new(rows.len() as u8, &cycles)
    }

    pub fn bytes(&self) -> Vec<u8> {
        let mut bytes = vec![0, 0, self.version, self.signals];
        bytes.extend(self.cycles.iter().flat_map(|cycle| cycle.to_be_bytes()));
        bytes.extend(&self.tail);
        bytes.truncate(self.cut.unwrap_or(usize::MAX));
        set_length(&mut bytes, self.length_off);
        bytes
    }
}

fn set_length(bytes: &mut [u8], off: i32) {
    if bytes.len() >= 2 {
        let length = (bytes.len() as i32 - 2 + off) as u16;
        bytes[..2].copy_from_slice(&length.to_be_bytes());
    }
}

/// Bytes as they are printed for replay.
pub fn hex(bytes: &[u8]) -> String {
    let mut text = String::new();
    for byte in bytes {
        write!(text, "{byte:02X} ").unwrap();
    }
    text.trim_end().to_string()
}

/// The bytes of a line as `hex` prints it.
pub fn from_hex(text: &str) -> Vec<u8> {
    text.split_whitespace().map(|byte| u8::from_str_radix(byte, 16).unwrap()).collect()
}

/// The bytes of a file of hexadecimal text with comments.
pub fn hex_file(text: &str) -> Vec<u8> {
    let lines = text.lines().map(|line| line.split('#').next().unwrap());
    from_hex(&lines.collect::<Vec<_>>().join(" "))
}
