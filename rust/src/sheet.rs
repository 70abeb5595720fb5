//! Sheets that the proved library accepts.

use crate::bytes::{self, Table};
use crate::error::{Error, Operation};
use crate::trace::Trace;
use crate::{Board, Formula, Verdict};
use std::fmt;
use std::str::FromStr;

/// What a clause is to the requirement.
#[derive(Clone, Copy, Debug, PartialEq, Eq, Hash)]
pub enum Role {
    Assumption,
    Commitment,
    Advice,
}

impl Role {
    const ALL: [Role; 3] = [Role::Assumption, Role::Commitment, Role::Advice];

    /// Its byte in a stored clause.
    fn number(self) -> u8 {
        self as u8
    }
}

/// The six types of clauses.
#[derive(Clone, Copy, Debug, PartialEq, Eq, Hash)]
pub enum Type {
    Pref,
    Init,
    Anti,
    Implies,
    Follows,
    Triggers,
}

impl Type {
    const ALL: [Type; 6] =
        [Type::Pref, Type::Init, Type::Anti, Type::Implies, Type::Follows, Type::Triggers];

    /// Its byte in a stored clause.
    fn number(self) -> u8 {
        self as u8 + 1
    }

    /// How it is typed.
    pub fn word(self) -> &'static str {
        match self {
            Type::Pref => "pref",
            Type::Init => "init",
            Type::Anti => "anti",
            Type::Implies => "implies",
            Type::Follows => "follows",
            Type::Triggers => "triggers",
        }
    }

    /// How many parts it has.
    pub fn parts(self) -> usize {
        match self {
            Type::Pref | Type::Anti => 1,
            Type::Init | Type::Implies => 2,
            Type::Follows | Type::Triggers => 3,
        }
    }
}

/// A part of a clause: the node that is its root, and the mask of its names, bit u for name u.
#[derive(Clone, Copy, Debug, PartialEq, Eq, Hash)]
pub struct Part {
    pub root: usize,
    pub names: u8,
}

/// A clause, its parts in the order D1, D2, D3.
#[derive(Clone, Debug, PartialEq, Eq, Hash)]
pub struct Clause {
    pub kind: Type,
    pub role: Role,
    pub parts: Vec<Part>,
}

/// A node as it is stored (docs/FORMAT.md has the ops).
#[derive(Clone, Copy, Debug, PartialEq, Eq, Hash)]
pub struct Node {
    pub op: u8,
    pub q: u8,
    pub a: u16,
    pub b: u16,
}

impl Node {
    /// Whether it is a formula, on an interval, or else a proposition, at a cycle.
    ///
    /// ```
    /// let sheet: fasunqir::Sheet = "1 0\nrequire anti(<s0>:)\n".parse().unwrap();
    /// assert!(sheet.nodes().into_iter().map(fasunqir::Node::is_formula).eq([false, true]));
    /// ```
    pub fn is_formula(self) -> bool {
        self.op >= 16
    }

    /// Its operands, which are earlier nodes, first a, then b.
    pub fn operands(self) -> impl Iterator<Item = usize> {
        let (first, second) = match self.op {
            5 | 16..=19 | 23 | 25 | 26 | 30 | 31 => (Some(self.a), None),
            6 | 7 | 20..=22 => (Some(self.a), Some(self.b)),
            _ => (None, None),
        };
        [first, second].into_iter().flatten().map(usize::from)
    }

    /// The same node where each of its operands has another number.
    pub(crate) fn renumbered(self, number: &[usize]) -> Node {
        let mut operands = self.operands().map(|operand| number[operand] as u16);
        let a = operands.next().unwrap_or(self.a);
        Node { a, b: operands.next().unwrap_or(self.b), ..self }
    }
}

/// The nodes that the area of a sheet's nodes has, one after the other.
pub(crate) fn nodes_of(area: &[u8]) -> Vec<Node> {
    let pair = |high, low| u16::from_be_bytes([high, low]);
    area.chunks_exact(NODE)
        .map(|n| Node { op: n[0], q: n[1], a: pair(n[2], n[3]), b: pair(n[4], n[5]) })
        .collect()
}

/// Bytes before the nodes, of a node and of a clause.
pub(crate) const HEADER: usize = 9;
pub(crate) const NODE: usize = 6;
pub(crate) const CLAUSE: usize = 11;

/// A sheet: bytes of the stored layout to which none of the refusals 1–9 applies. It is read from
/// such bytes, or from a text as it is typed, and prints as such a text.
///
/// ```
/// use fasunqir::{Role, Sheet};
///
/// let sheet: Sheet = "1 0\nrequire anti(<s0>:)\n".parse().unwrap();
/// assert_eq!(sheet.signals(), 1);
/// assert_eq!(sheet.clauses()[0].role, Role::Commitment);
/// assert_eq!(Sheet::try_from(sheet.as_bytes()), Ok(sheet.clone()));
///
/// let mut bytes = sheet.as_bytes().to_vec();
/// bytes[2] = 9;
/// assert_eq!(Sheet::try_from(bytes).unwrap_err().number(), 2);
/// ```
#[derive(Clone, PartialEq, Eq, Hash)]
pub struct Sheet {
    bytes: Vec<u8>,
}

impl Sheet {
    /// The sheet that is made of these.
    pub(crate) fn made(
        signals: usize,
        names: usize,
        nodes: &[Node],
        clauses: &[Clause],
    ) -> Result<Sheet, Error> {
        let length = HEADER + NODE * nodes.len() + CLAUSE * clauses.len() - 2;
        let mut bytes = (length as u16).to_be_bytes().to_vec();
        bytes.extend([1, 1, signals as u8, names as u8]);
        bytes.extend((nodes.len() as u16).to_be_bytes());
        bytes.push(clauses.len() as u8);
        for node in nodes {
            bytes.extend([node.op, node.q]);
            bytes.extend([node.a, node.b].map(u16::to_be_bytes).concat());
        }
        for clause in clauses {
            let part =
                |k: usize| clause.parts.get(k).copied().unwrap_or(Part { root: 0, names: 0 });
            bytes.extend([clause.kind.number(), clause.role.number()]);
            (0..3).for_each(|k| bytes.extend((part(k).root as u16).to_be_bytes()));
            (0..3).for_each(|k| bytes.push(part(k).names));
        }
        Sheet::try_from(bytes)
    }

    /// The stored bytes.
    pub fn as_bytes(&self) -> &[u8] {
        &self.bytes
    }

    /// How many signals it has, 1–16.
    pub fn signals(&self) -> usize {
        self.bytes[4].into()
    }

    /// How many names it has, 0–3.
    pub fn names(&self) -> usize {
        self.bytes[5].into()
    }

    /// Where the clauses begin.
    fn clause_area(&self) -> usize {
        HEADER + NODE * usize::from(u16::from_be_bytes([self.bytes[6], self.bytes[7]]))
    }

    pub fn nodes(&self) -> Vec<Node> {
        nodes_of(&self.bytes[HEADER..self.clause_area()])
    }

    pub fn clauses(&self) -> Vec<Clause> {
        let clause = |c: &[u8]| {
            let kind = Type::ALL[usize::from(c[0]) - 1];
            let role = Role::ALL[usize::from(c[1])];
            let part = |k: usize| Part {
                root: u16::from_be_bytes([c[2 + 2 * k], c[3 + 2 * k]]).into(),
                names: c[8 + k],
            };
            Clause { kind, role, parts: (0..kind.parts()).map(part).collect() }
        };
        self.bytes[self.clause_area()..].chunks_exact(CLAUSE).map(clause).collect()
    }

    /// The mask of the names that a node reaches, bit u for name u.
    pub fn reached_names(&self, node: usize) -> u8 {
        let nodes = self.nodes();
        let mut reached = vec![false; nodes.len()];
        if node < nodes.len() {
            reached[node] = true;
        }
        let mut names = 0;
        for k in (0..nodes.len()).rev().filter(|&k| node < nodes.len() && k <= node) {
            if !reached[k] {
                continue;
            }
            nodes[k].operands().for_each(|operand| reached[operand] = true);
            names |= match nodes[k] {
                Node { op: 4 | 28, a, .. } => 1 << a,
                Node { op: 29, q, .. } => 1 << (q / 16) | 1 << (q % 16),
                _ => 0,
            };
        }
        names
    }

    /// The same sheet with another role for one of its clauses.
    ///
    /// ```
    /// use fasunqir::{Role, Sheet};
    ///
    /// let sheet: Sheet = "1 0\nrequire anti(<s0>:)\n".parse().unwrap();
    /// let trace = "s0".parse().unwrap();
    /// assert_eq!(sheet.check(&trace).unwrap().to_string(), "BROKEN 0 0 0 0 0");
    /// assert_eq!(sheet.with_role(0, Role::Advice).check(&trace).unwrap().to_string(), "HOLDS 1");
    /// ```
    ///
    /// # Panics
    ///
    /// Where the sheet has no such clause.
    pub fn with_role(&self, clause: usize, role: Role) -> Sheet {
        assert!(clause < self.clauses().len(), "no clause {clause}");
        let mut bytes = self.bytes.clone();
        bytes[self.clause_area() + CLAUSE * clause + 1] = role.number();
        Sheet { bytes }
    }

    /// A trace for this sheet: bytes refused by the lowest of 10–13 that applies.
    ///
    /// ```
    /// let sheet: fasunqir::Sheet = "1 0\nrequire anti(<s0>:)\n".parse().unwrap();
    /// assert!(sheet.trace(&[0x00, 0x04, 1, 1, 0, 1]).is_ok());
    /// assert_eq!(sheet.trace(&[0x00, 0x04, 1, 2, 0, 1]).unwrap_err().number(), 12);
    /// ```
    pub fn trace(&self, bytes: &[u8]) -> Result<Trace, Error> {
        Trace::accepted(self.bytes[4], bytes)
            .map_err(|number| Error { number, operation: Operation::Check })
    }

    /// The verdict on a trace; refused only by 12, where the trace has another number of signals.
    pub fn check(&self, trace: &Trace) -> Result<Verdict, Error> {
        bytes::check(&self.bytes, trace.as_bytes())
    }

    /// On which intervals formula node `node` holds, name u marked at `cycles[u]`; refused by 12, 16
    /// or 17.
    pub fn table(&self, trace: &Trace, node: usize, cycles: [usize; 3]) -> Result<Table, Error> {
        bytes::table(&self.bytes, trace.as_bytes(), node, cycles)
    }

    /// The sheet's formula, which is true of a trace exactly when its requirement is.
    ///
    /// ```
    /// let sheet: fasunqir::Sheet = "1 0\nrequire anti(<s0>:)\n".parse().unwrap();
    /// assert_eq!(sheet.formula().as_bytes(), fasunqir::bytes::translate(sheet.as_bytes()).unwrap());
    /// ```
    pub fn formula(&self) -> Formula {
        let bytes =
            bytes::translate(&self.bytes).expect("a sheet that is accepted has its formula");
        Formula::try_from(bytes).expect("a formula as it is stored")
    }

    /// A board on this sheet, with no cycles and no verdict.
    pub fn board(&self) -> Board {
        bytes::open(&self.bytes).expect("a sheet that is accepted has its board")
    }
}

impl TryFrom<Vec<u8>> for Sheet {
    type Error = Error;

    fn try_from(bytes: Vec<u8>) -> Result<Sheet, Error> {
        // a board opens on just the sheets that pass 1–9
        bytes::open(&bytes)?;
        Ok(Sheet { bytes })
    }
}

impl TryFrom<&[u8]> for Sheet {
    type Error = Error;

    fn try_from(bytes: &[u8]) -> Result<Sheet, Error> {
        Sheet::try_from(bytes.to_vec())
    }
}

impl FromStr for Sheet {
    type Err = Error;

    fn from_str(text: &str) -> Result<Sheet, Error> {
        Ok(Sheet { bytes: bytes::read_text(text.as_bytes())? })
    }
}

impl fmt::Debug for Sheet {
    fn fmt(&self, out: &mut fmt::Formatter<'_>) -> fmt::Result {
        write!(out, "Sheet({:02X?})", self.bytes)
    }
}
