//! Stored sheets and traces: the layout, and refusals 1–13, each its own test. A test may rely on
//! the lower numbers not applying.

use super::Number;

#[derive(Clone, Copy, Debug, PartialEq, Eq)]
pub struct Node {
    pub op: u8,
    pub q: u8,
    pub a: usize,
    pub b: usize,
}

#[derive(Clone, Copy, Debug, PartialEq, Eq)]
pub struct Clause {
    pub clause_type: u8,
    pub role: u8,
    pub roots: [usize; 3],
    pub masks: [u8; 3],
}

impl Clause {
    /// How many of the three roots and masks the clause's type uses.
    pub fn parts(&self) -> usize {
        match self.clause_type {
            1 | 3 => 1,
            2 | 4 => 2,
            _ => 3,
        }
    }
}

#[derive(Clone, Debug)]
pub struct Sheet {
    pub signals: usize,
    pub names: usize,
    pub nodes: Vec<Node>,
    pub clauses: Vec<Clause>,
}

pub fn field(bytes: &[u8], at: usize) -> usize {
    bytes[at] as usize * 256 + bytes[at + 1] as usize
}

/// Tests of whether a number applies.
type OfBytes = fn(&[u8]) -> bool;
type OfSheet = fn(&Sheet) -> bool;
type OfTrace = fn(&[u8], usize) -> bool;

/// The sheet that the bytes store, or the lowest of 1–9 that applies.
pub fn sheet(bytes: &[u8]) -> Result<Sheet, Number> {
    let of_bytes: [(Number, OfBytes); 5] = [
        (1, length_field_is_wrong),
        (2, version_is_wrong),
        (3, kind_is_wrong),
        (4, count_is_out_of_range),
        (5, length_is_wrong),
    ];
    for (number, applies) in of_bytes {
        if applies(bytes) {
            return Err(number);
        }
    }
    let sheet = read(bytes);
    let of_sheet: [(Number, OfSheet); 4] = [
        (6, some_field_is_wrong),
        (7, some_operand_is_wrong),
        (8, some_clause_is_wrong),
        (9, some_mask_is_wrong),
    ];
    for (number, applies) in of_sheet {
        if applies(&sheet) {
            return Err(number);
        }
    }
    Ok(sheet)
}

fn length_field_is_wrong(bytes: &[u8]) -> bool {
    bytes.len() < 9 || field(bytes, 0) != bytes.len() - 2
}

fn version_is_wrong(bytes: &[u8]) -> bool {
    bytes[2] != 1
}

fn kind_is_wrong(bytes: &[u8]) -> bool {
    bytes[3] != 1
}

fn count_is_out_of_range(bytes: &[u8]) -> bool {
    let (s, m, n, c) = (bytes[4], bytes[5], field(bytes, 6), bytes[8]);
    !(1..=16).contains(&s) || m > 3 || !(1..=64).contains(&n) || !(1..=8).contains(&c)
}

fn length_is_wrong(bytes: &[u8]) -> bool {
    bytes.len() != 9 + 6 * field(bytes, 6) + 11 * bytes[8] as usize
}

/// The fields of a sheet of either kind; its length is right.
pub fn read(bytes: &[u8]) -> Sheet {
    let nodes = field(bytes, 6);
    let node = |at: usize| Node {
        op: bytes[at],
        q: bytes[at + 1],
        a: field(bytes, at + 2),
        b: field(bytes, at + 4),
    };
    let clause = |at: usize| Clause {
        clause_type: bytes[at],
        role: bytes[at + 1],
        roots: [field(bytes, at + 2), field(bytes, at + 4), field(bytes, at + 6)],
        masks: [bytes[at + 8], bytes[at + 9], bytes[at + 10]],
    };
    Sheet {
        signals: bytes[4] as usize,
        names: bytes[5] as usize,
        nodes: (0..nodes).map(|i| node(9 + 6 * i)).collect(),
        clauses: (0..bytes[8] as usize).map(|i| clause(9 + 6 * nodes + 11 * i)).collect(),
    }
}

pub fn is_proposition(op: u8) -> bool {
    (1..=7).contains(&op)
}

/// Whether the op is a formula's, of either kind.
pub fn is_formula(op: u8) -> bool {
    (16..=31).contains(&op)
}

/// Which of q, a and b an op uses.
fn uses(op: u8) -> (bool, bool, bool) {
    match op {
        1 | 2 => (false, false, false),
        3..=5 => (false, true, false),
        6 | 7 => (false, true, true),
        16..=19 => (false, true, false),
        20..=22 => (false, true, true),
        23 => (false, true, false),
        24 => (true, false, true),
        25 | 26 => (true, true, true),
        27 => (true, true, false),
        28 => (false, true, false),
        29 => (true, true, true),
        30 => (false, true, false),
        31 => (false, true, true),
        _ => panic!("no op: {op}"),
    }
}

pub fn an_unused_field_is_set(node: &Node) -> bool {
    let (q, a, b) = uses(node.op);
    (!q && node.q != 0) || (!a && node.a != 0) || (!b && node.b != 0)
}

/// Whether a signal, name, comparison or symbol is out of range, or a gap has a > b.
pub fn a_field_is_out_of_range(node: &Node, signals: usize, names: usize) -> bool {
    match node.op {
        3 => node.a >= signals,
        4 | 28 => node.a >= names,
        24..=26 => node.q > 4,
        27 => node.q > 7 || node.a >= signals,
        29 => (node.q / 16) as usize >= names || (node.q % 16) as usize >= names || node.a > node.b,
        31 => node.b >= names,
        _ => false,
    }
}

fn some_field_is_wrong(sheet: &Sheet) -> bool {
    sheet.nodes.iter().any(|node| {
        !(is_proposition(node.op) || (16..=29).contains(&node.op))
            || an_unused_field_is_set(node)
            || a_field_is_out_of_range(node, sheet.signals, sheet.names)
    })
}

/// The operands of a node, each with whether it is to be a proposition.
pub fn operands(node: &Node) -> Vec<(usize, bool)> {
    match node.op {
        5 => vec![(node.a, true)],
        6 | 7 => vec![(node.a, true), (node.b, true)],
        16..=19 | 25 | 26 => vec![(node.a, true)],
        20..=22 => vec![(node.a, false), (node.b, false)],
        23 | 30 | 31 => vec![(node.a, false)],
        _ => vec![],
    }
}

pub fn some_operand_is_wrong(sheet: &Sheet) -> bool {
    (0..sheet.nodes.len()).any(|i| {
        operands(&sheet.nodes[i]).iter().any(|&(operand, proposition)| {
            operand >= i || is_proposition(sheet.nodes[operand].op) != proposition
        })
    })
}

fn some_clause_is_wrong(sheet: &Sheet) -> bool {
    sheet.clauses.iter().any(|clause| {
        if !(1..=6).contains(&clause.clause_type) || clause.role > 2 {
            return true;
        }
        (0..3).any(|part| {
            let (root, mask) = (clause.roots[part], clause.masks[part]);
            if part < clause.parts() {
                root >= sheet.nodes.len() || !is_formula(sheet.nodes[root].op)
            } else {
                root != 0 || mask != 0
            }
        })
    })
}

/// The names that a node reaches, directly and through its operands.
pub fn reached(nodes: &[Node], root: usize) -> Vec<usize> {
    let mut visited = vec![false; nodes.len()];
    let mut names = vec![];
    let mut waiting = vec![root];
    while let Some(i) = waiting.pop() {
        if visited[i] {
            continue;
        }
        visited[i] = true;
        let node = &nodes[i];
        match node.op {
            4 | 28 => names.push(node.a),
            29 => names.extend([(node.q / 16) as usize, (node.q % 16) as usize]),
            _ => (),
        }
        waiting.extend(operands(node).iter().map(|&(operand, _)| operand));
    }
    names.sort();
    names.dedup();
    names
}

fn some_mask_is_wrong(sheet: &Sheet) -> bool {
    sheet.clauses.iter().any(|clause| {
        (0..clause.parts()).any(|part| {
            let mask = clause.masks[part] as usize;
            mask >= 1 << sheet.names
                || reached(&sheet.nodes, clause.roots[part])
                    .iter()
                    .any(|name| mask >> name & 1 == 0)
        })
    })
}

/// The cycles that the bytes store, or the lowest of 10–13 that applies.
pub fn trace(bytes: &[u8], sheet: &Sheet) -> Result<Vec<u16>, Number> {
    let tests: [(Number, OfTrace); 4] = [
        (10, trace_length_field_is_wrong),
        (11, trace_version_is_wrong),
        (12, trace_signals_are_wrong),
        (13, some_cycle_is_wrong),
    ];
    for (number, applies) in tests {
        if applies(bytes, sheet.signals) {
            return Err(number);
        }
    }
    Ok(bytes[4..].chunks(2).map(|word| field(word, 0) as u16).collect())
}

fn trace_length_field_is_wrong(bytes: &[u8], _signals: usize) -> bool {
    bytes.len() < 4 || field(bytes, 0) != bytes.len() - 2
}

fn trace_version_is_wrong(bytes: &[u8], _signals: usize) -> bool {
    bytes[2] != 1
}

fn trace_signals_are_wrong(bytes: &[u8], signals: usize) -> bool {
    bytes[3] as usize != signals
}

fn some_cycle_is_wrong(bytes: &[u8], signals: usize) -> bool {
    let words = &bytes[4..];
    !words.len().is_multiple_of(2)
        || !(1..=64).contains(&(words.len() / 2))
        || words.chunks(2).any(|word| field(word, 0) >= 1 << signals)
}
