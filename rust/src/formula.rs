//! Stored formulas, sheets of kind 2, and how they are written.

use crate::notation::{self, Writer, PLAIN, SIGNED};
use crate::sheet::{nodes_of, Node, HEADER, NODE};
use std::fmt;

/// A QDDC formula: bytes of the stored layout of kind 2, whose root is their last node. It is what
/// [`Sheet::formula`](crate::Sheet::formula) gives, and prints in the notation of document 004.
///
/// ```
/// use fasunqir::{Formula, Sheet};
///
/// let sheet: Sheet = "1 0\nrequire anti(<s0>:)\n".parse().unwrap();
/// let formula = sheet.formula();
/// assert_eq!(
///     formula.to_string(),
///     "slen < 0 ∨ ¬(slen < 0 ∨ slen ≥ 0 ^ (⟨s0⟩ ^ slen ≥ 0))\n"
/// );
/// assert_eq!(Formula::try_from(formula.as_bytes()), Ok(formula.clone()));
///
/// let error = Formula::try_from(sheet.as_bytes()).unwrap_err();
/// assert_eq!(error.to_string(), "its kind is 1, and a formula is of kind 2");
/// ```
#[derive(Clone, PartialEq, Eq, Hash)]
pub struct Formula {
    bytes: Vec<u8>,
}

impl Formula {
    /// The stored bytes.
    pub fn as_bytes(&self) -> &[u8] {
        &self.bytes
    }

    /// How many signals it has, 1–16.
    pub fn signals(&self) -> usize {
        self.bytes[4].into()
    }

    /// How many names it has, 0–3.
    pub fn names(&self) -> usize {
        self.bytes[5].into()
    }

    /// Its nodes; the last is the root.
    pub fn nodes(&self) -> Vec<Node> {
        nodes_of(&self.bytes[HEADER..])
    }

    /// How many nodes the root doesn't reach. They are no part of the formula, and no part of how it
    /// is written.
    ///
    /// ```
    /// // slen = 5, which nothing uses, and slen < 0
    /// let bytes = [0, 19, 1, 2, 1, 0, 0, 2, 0, 24, 2, 0, 0, 0, 5, 24, 0, 0, 0, 0, 0];
    /// let formula = fasunqir::Formula::try_from(&bytes[..]).unwrap();
    /// assert_eq!((formula.nodes().len(), formula.unreached()), (2, 1));
    /// assert_eq!(formula.to_string(), "slen < 0\n");
    /// ```
    pub fn unreached(&self) -> usize {
        let nodes = self.nodes();
        notation::uses(&nodes, &[nodes.len() - 1]).into_iter().filter(|&uses| uses == 0).count()
    }

    /// The formula as document 004 writes it, or in plain letters; each line has its end. What is used
    /// more than once and is more than a sign or two long has a line `let f1 = …` before the last
    /// line, which is the root. docs/FORMAT.md has the signs.
    ///
    /// ```
    /// let sheet: fasunqir::Sheet = "1 0\nrequire anti(<s0>:)\n".parse().unwrap();
    /// assert_eq!(
    ///     sheet.formula().notation(true),
    ///     "slen < 0 | !(slen < 0 | slen >= 0 ^ (<s0> ^ slen >= 0))\n"
    /// );
    /// ```
    pub fn notation(&self, ascii: bool) -> String {
        let nodes = self.nodes();
        let root = nodes.len() - 1;
        let names = notation::shared_names(&nodes, &[root]);
        let signs = if ascii { &PLAIN } else { &SIGNED };
        let writer = Writer { nodes: &nodes, names: &names, signs };
        notation::definitions(&writer) + &notation::broken("", &writer.pieces(root)) + "\n"
    }
}

impl TryFrom<Vec<u8>> for Formula {
    type Error = FormulaError;

    fn try_from(bytes: Vec<u8>) -> Result<Formula, FormulaError> {
        header(&bytes)?;
        let nodes = nodes_of(&bytes[HEADER..]);
        for node in 0..nodes.len() {
            fault(&nodes, node, bytes[4], bytes[5])
                .map_or(Ok(()), |why| Err(FormulaError::Node { node, why }))?;
        }
        match nodes.last() {
            Some(root) if root.is_formula() => Ok(Formula { bytes }),
            _ => Err(FormulaError::Root),
        }
    }
}

impl TryFrom<&[u8]> for Formula {
    type Error = FormulaError;

    fn try_from(bytes: &[u8]) -> Result<Formula, FormulaError> {
        Formula::try_from(bytes.to_vec())
    }
}

impl fmt::Display for Formula {
    fn fmt(&self, out: &mut fmt::Formatter<'_>) -> fmt::Result {
        out.write_str(&self.notation(false))
    }
}

impl fmt::Debug for Formula {
    fn fmt(&self, out: &mut fmt::Formatter<'_>) -> fmt::Result {
        write!(out, "Formula({:02X?})", self.bytes)
    }
}

/// Why bytes are no stored formula, in words. No operation reads one, so no refusal has a number for
/// this.
///
/// ```
/// use fasunqir::{Formula, FormulaError};
///
/// let bytes = [0, 13, 1, 2, 1, 0, 0, 1, 0, 24, 7, 0, 0, 0, 5];
/// let error = Formula::try_from(&bytes[..]).unwrap_err();
/// assert!(matches!(error, FormulaError::Node { node: 0, .. }));
/// assert_eq!(error.to_string(), "node 0: q is 7, and the comparisons are 0 to 4");
/// ```
#[derive(Clone, Debug, PartialEq, Eq)]
#[non_exhaustive]
pub enum FormulaError {
    /// There are fewer bytes than are before the nodes.
    Short {
        bytes: usize,
    },
    /// Bytes 0–1 aren't the length less 2.
    Length {
        bytes: usize,
        says: u16,
    },
    Version(u8),
    Kind(u8),
    Signals(u8),
    Names(u8),
    Clauses(u8),
    /// Bytes 6–7 aren't the number of nodes that there are bytes for, or there are none.
    Nodes {
        bytes: usize,
        says: u16,
    },
    /// A node is none of a formula.
    Node {
        node: usize,
        why: String,
    },
    /// The last node is a proposition.
    Root,
}

impl fmt::Display for FormulaError {
    fn fmt(&self, out: &mut fmt::Formatter<'_>) -> fmt::Result {
        match self {
            FormulaError::Short { bytes } => {
                write!(out, "it has {bytes} bytes, and a formula has {} at least", HEADER + NODE)
            }
            FormulaError::Length { bytes, says } => {
                write!(out, "bytes 0–1 say that {says} bytes follow them, and {} do", bytes - 2)
            }
            FormulaError::Version(version) => write!(out, "its version is {version}, not 1"),
            FormulaError::Kind(kind) => {
                write!(out, "its kind is {kind}, and a formula is of kind 2")
            }
            FormulaError::Signals(signals) => write!(out, "it has {signals} signals, not 1 to 16"),
            FormulaError::Names(names) => write!(out, "it has {names} names, not 0 to 3"),
            FormulaError::Clauses(clauses) => {
                write!(out, "byte 8 says {clauses} clauses, and a formula has none")
            }
            FormulaError::Nodes { says: 0, .. } => write!(out, "it has no nodes"),
            FormulaError::Nodes { bytes, says } => {
                let needed = HEADER + NODE * usize::from(*says);
                write!(out, "its {says} nodes make {needed} bytes, and it has {bytes}")
            }
            FormulaError::Node { node, why } => write!(out, "node {node}: {why}"),
            FormulaError::Root => {
                write!(out, "its last node, the root, is a proposition and no formula")
            }
        }
    }
}

impl std::error::Error for FormulaError {}

/// What stands before the nodes, and that there are as many as it says.
fn header(bytes: &[u8]) -> Result<(), FormulaError> {
    let &[l0, l1, version, kind, signals, names, n0, n1, clauses, ref nodes @ ..] = bytes else {
        return Err(FormulaError::Short { bytes: bytes.len() });
    };
    let (length, count) = (u16::from_be_bytes([l0, l1]), u16::from_be_bytes([n0, n1]));
    let demand = |ok: bool, error| if ok { Ok(()) } else { Err(error) };
    let says = |says| FormulaError::Length { bytes: bytes.len(), says };
    demand(usize::from(length) + 2 == bytes.len(), says(length))?;
    demand(version == 1, FormulaError::Version(version))?;
    demand(kind == 2, FormulaError::Kind(kind))?;
    demand((1..=16).contains(&signals), FormulaError::Signals(signals))?;
    demand(names <= 3, FormulaError::Names(names))?;
    demand(clauses == 0, FormulaError::Clauses(clauses))?;
    let fits = count > 0 && nodes.len() == NODE * usize::from(count);
    demand(fits, FormulaError::Nodes { bytes: bytes.len(), says: count })
}

/// What a field of a node holds.
#[derive(Clone, Copy)]
enum Field {
    Unused,
    Signal,
    Name,
    Comparison,
    Number,
    Proposition,
    Formula,
}

/// The fields q, a and b of an op of kind 2.
fn fields(op: u8) -> Option<[Field; 3]> {
    use Field::*;
    match op {
        1 | 2 => Some([Unused, Unused, Unused]),
        3 => Some([Unused, Signal, Unused]),
        4 => Some([Unused, Name, Unused]),
        5 | 16..=19 => Some([Unused, Proposition, Unused]),
        6 | 7 => Some([Unused, Proposition, Proposition]),
        20..=22 => Some([Unused, Formula, Formula]),
        23 | 30 => Some([Unused, Formula, Unused]),
        24 => Some([Comparison, Unused, Number]),
        25 | 26 => Some([Comparison, Proposition, Number]),
        31 => Some([Unused, Formula, Name]),
        _ => None,
    }
}

/// What is wrong with a node, in words.
fn fault(nodes: &[Node], node: usize, signals: u8, names: u8) -> Option<String> {
    let Node { op, q, a, b } = nodes[node];
    let Some(fields) = fields(op) else {
        return Some(format!("op {op} is none of a formula's"));
    };
    let values = [("q", q.into()), ("a", a), ("b", b)];
    fields.into_iter().zip(values).find_map(|(field, (letter, value))| {
        let wrong = |what: String| Some(format!("{letter} is {value}, and {what}"));
        let operand = |formula: bool, sort: &str| match nodes[..node].get(usize::from(value)) {
            None => wrong("an operand is an earlier node".to_string()),
            Some(found) if found.is_formula() != formula => {
                wrong(format!("op {op} needs a {sort} there, which node {value} is not"))
            }
            Some(_) => None,
        };
        match field {
            Field::Unused if value != 0 => wrong(format!("op {op} doesn't use it")),
            Field::Signal if value >= signals.into() => wrong(counted(signals, "signal")),
            Field::Name if value >= names.into() => wrong(counted(names, "name")),
            Field::Comparison if value > 4 => wrong("the comparisons are 0 to 4".to_string()),
            Field::Proposition => operand(false, "proposition"),
            Field::Formula => operand(true, "formula"),
            _ => None,
        }
    })
}

/// Which signals or names there are.
fn counted(count: u8, what: &str) -> String {
    match count {
        0 => format!("there are no {what}s"),
        1 => format!("the only {what} is 0"),
        _ => format!("the {what}s are 0 to {}", count - 1),
    }
}
