//! A word beside every refusal: what was found in the bytes that the library refused. The number is the
//! library's; where nothing is found that it stands for, its own text is all that is said.

use fasunqir::{Error, Node, Operation, Type};

/// Of a stored sheet, refused by 1–9.
pub fn sheet(error: Error, bytes: &[u8]) -> String {
    let found = match error.number() {
        1 => length(bytes, 9, "sheet"),
        2 => version(bytes, "sheet"),
        3 => kind(bytes),
        4 => counts(bytes),
        5 => whole_length(bytes),
        6 => Stored::read(bytes).and_then(|stored| stored.field()),
        7 => Stored::read(bytes).and_then(|stored| stored.operand()),
        8 => Stored::read(bytes).and_then(|stored| stored.clause()),
        9 => Stored::read(bytes).and_then(|stored| stored.mask()),
        _ => None,
    };
    told(error, found)
}

/// Of a stored trace for a sheet with so many signals, or for itself; refused by 10–13.
pub fn trace(error: Error, signals: usize, bytes: &[u8]) -> String {
    let found = match error.number() {
        10 => length(bytes, 4, "trace"),
        11 => version(bytes, "trace"),
        12 => bytes.get(3).map(|&own| other_signals(error, own.into(), signals)),
        13 => bytes.get(4..).and_then(|words| {
            if words.len() % 2 == 1 {
                return Some("a single byte is left at the end, and a minute has two".to_string());
            }
            let cycles: Vec<u16> =
                words.chunks_exact(2).map(|word| u16::from_be_bytes([word[0], word[1]])).collect();
            let whose = if error.operation() == Operation::Trace { "trace" } else { "sheet" };
            no_trace(whose, signals, &cycles)
        }),
        _ => None,
    };
    told(error, found)
}

/// Of the trace that minutes make for a sheet with so many signals; refused by 13.
pub fn minutes(error: Error, signals: usize, cycles: &[u16]) -> String {
    minutes_of("sheet", error, signals, cycles)
}

/// Of the trace that minutes make by themselves, with so many signals; refused by 12 or 13.
pub fn minutes_alone(error: Error, signals: usize, cycles: &[u16]) -> String {
    minutes_of("trace", error, signals, cycles)
}

fn minutes_of(whose: &str, error: Error, signals: usize, cycles: &[u16]) -> String {
    let found = match error.number() {
        12 => Some(other_signals(error, signals, signals)),
        13 => no_trace(whose, signals, cycles),
        _ => None,
    };
    told(error, found)
}

/// The number, and what was found or else the number's own text.
fn told(error: Error, found: Option<String>) -> String {
    match found {
        Some(found) => format!("{}: {found}", error.number()),
        None => error.to_string(),
    }
}

fn pair(bytes: &[u8], at: usize) -> Option<usize> {
    Some(usize::from(*bytes.get(at)?) * 256 + usize::from(*bytes.get(at + 1)?))
}

/// A count with its noun.
fn of(count: usize, noun: &str) -> String {
    format!("{count} {noun}{}", if count == 1 { "" } else { "s" })
}

/// Too few bytes, or a length field that isn't so.
fn length(bytes: &[u8], least: usize, what: &str) -> Option<String> {
    let utf16 = bytes.starts_with(b"\xff\xfe") || bytes.starts_with(b"\xfe\xff");
    let looks = if utf16 { "; it looks like UTF-16 text, save it as UTF-8" } else { "" };
    let has = bytes.len();
    let says = pair(bytes, 0);
    if has < least {
        return Some(format!("it has {}, and a {what} at least {least}{looks}", of(has, "byte")));
    }
    let says = says.filter(|&says| says != has - 2)?;
    Some(format!(
        "the length field says {says}, and the file has {has} bytes, {} of them after it{looks}",
        has - 2
    ))
}

fn version(bytes: &[u8], what: &str) -> Option<String> {
    let version = bytes.get(2).filter(|&&version| version != 1)?;
    Some(format!("the {what}'s version is {version}, and only 1 is known"))
}

fn kind(bytes: &[u8]) -> Option<String> {
    let kind = bytes.get(3).filter(|&&kind| kind != 1)?;
    let formula = if *kind == 2 { ", an emitted formula" } else { "" };
    Some(format!("the sheet is of kind {kind}{formula}; a requirement is of kind 1"))
}

/// The first count that is out of its range.
fn counts(bytes: &[u8]) -> Option<String> {
    let byte = |at: usize| bytes.get(at).map(|&count| usize::from(count));
    let (nodes, signals, names, clauses) = (pair(bytes, 6)?, byte(4)?, byte(5)?, byte(8)?);
    let counts = [
        (signals, 1..=16, "signal"),
        (names, 0..=3, "name"),
        (nodes, 1..=64, "node"),
        (clauses, 1..=8, "clause"),
    ];
    counts.into_iter().find(|(count, range, _)| !range.contains(count)).map(
        |(count, range, what)| {
            let has = of(count, what);
            format!("the sheet has {has}, and can have {} to {}", range.start(), range.end())
        },
    )
}

fn whole_length(bytes: &[u8]) -> Option<String> {
    let (nodes, clauses) = (pair(bytes, 6)?, usize::from(*bytes.get(8)?));
    let whole = 9 + 6 * nodes + 11 * clauses;
    let (has, nodes, clauses) = (bytes.len(), of(nodes, "node"), of(clauses, "clause"));
    (has != whole)
        .then(|| format!("the sheet has {has} bytes; with {nodes} and {clauses} it has {whole}"))
}

fn other_signals(error: Error, own: usize, signals: usize) -> String {
    let has = of(own, "signal");
    if error.operation() == Operation::Trace || own == signals {
        return format!("the trace has {has}, and can have 1 to 16");
    }
    format!("the trace has {has}, the sheet {signals}")
}

/// Cycles that are none, too many, or have a signal that isn't there.
fn no_trace(whose: &str, signals: usize, cycles: &[u16]) -> Option<String> {
    if cycles.is_empty() {
        return Some("it has no minute, and needs one".to_string());
    }
    if cycles.len() > 64 {
        return Some(format!("it has {} minutes, and can have 64", cycles.len()));
    }
    cycles.iter().enumerate().find_map(|(minute, &cycle)| {
        let high = (signals..16).find(|k| cycle >> k & 1 == 1)?;
        let there = match signals {
            0 | 1 => "signal s0 alone".to_string(),
            _ => format!("signals s0 to s{}", signals - 1),
        };
        Some(format!("minute {minute} has s{high} set, and the {whose} has {there}"))
    })
}

/// The nodes and clauses of a sheet to which 1–5 don't apply.
struct Stored {
    signals: usize,
    names: usize,
    nodes: Vec<Node>,
    clauses: Vec<[u8; 11]>,
}

/// How an op is called: as it is typed, or as docs/FORMAT.md has it.
fn called(op: u8) -> &'static str {
    match op {
        1 => "false",
        2 => "true",
        3 => "signal",
        4 => "name",
        5 | 30 => "not",
        6 | 21 => "and",
        7 | 22 => "or",
        16 => "<a>",
        17 => "[a]",
        18 => "[[a]]",
        19 => "{{a}}",
        20 => "chop",
        23 => "star",
        24 => "slen",
        25 => "scount",
        26 => "sdur",
        27 => "draw",
        28 => "at",
        29 => "gap",
        31 => "some column",
        _ => "unknown",
    }
}

fn is_proposition(op: u8) -> bool {
    (1..=7).contains(&op)
}

/// Whether an op uses q, a and b.
fn uses(op: u8) -> [bool; 3] {
    match op {
        1 | 2 => [false, false, false],
        6 | 7 | 20..=22 => [false, true, true],
        24 => [true, false, true],
        25 | 26 | 29 => [true, true, true],
        27 => [true, true, false],
        _ => [false, true, false],
    }
}

/// Whether something is one of so many signals or names, in words.
fn none_of(letter: char, k: usize, count: usize, what: &str) -> String {
    format!("{letter}{k}, and the sheet has {}", of(count, what))
}

impl Stored {
    fn read(bytes: &[u8]) -> Option<Stored> {
        let area = bytes.get(9..9 + 6 * pair(bytes, 6)?)?;
        let node = |node: &[u8]| {
            Some(Node {
                op: *node.first()?,
                q: *node.get(1)?,
                a: pair(node, 2)? as u16,
                b: pair(node, 4)? as u16,
            })
        };
        Some(Stored {
            signals: bytes[4].into(),
            names: bytes[5].into(),
            nodes: area.chunks_exact(6).filter_map(node).collect(),
            clauses: bytes[9 + area.len()..]
                .chunks_exact(11)
                .filter_map(|clause| clause.try_into().ok())
                .collect(),
        })
    }

    /// The first node with a field that can't be so: refusal 6.
    fn field(&self) -> Option<String> {
        self.nodes.iter().enumerate().find_map(|(number, node)| {
            let why = self.wrong_field(node)?;
            let op = node.op;
            if !is_proposition(op) && !(16..=29).contains(&op) {
                return Some(format!("node {number} {why}"));
            }
            Some(format!("node {number} (op {op}, {}) {why}", called(op)))
        })
    }

    fn wrong_field(&self, node: &Node) -> Option<String> {
        let &Node { op, q, a, b } = node;
        let (a, b) = (usize::from(a), usize::from(b));
        match op {
            1..=7 | 16..=29 => {}
            30 | 31 => {
                return Some(format!("has op {op}, {}, which only formulas have", called(op)))
            }
            _ => return Some(format!("has op {op}, and there is none such")),
        }
        let fields = [("q", q.into()), ("a", a), ("b", b)];
        let unused =
            fields.into_iter().zip(uses(op)).find(|((_, value), used)| !used && *value != 0);
        if let Some(((field, value), _)) = unused {
            return Some(format!("has {value} for {field}, which it doesn't use"));
        }
        let name = |u: usize| (u >= self.names).then(|| none_of('u', u, self.names, "name"));
        let signal =
            |k: usize| (k >= self.signals).then(|| none_of('s', k, self.signals, "signal"));
        let why = match op {
            3 => signal(a)?,
            4 | 28 => name(a)?,
            24..=26 if q > 4 => format!("comparison {q}, and they are 0 to 4"),
            27 if q > 7 => format!("symbol {q}, and they are 0 to 7"),
            27 => signal(a)?,
            29 => match name((q / 16).into()).or_else(|| name((q % 16).into())) {
                Some(why) => why,
                None if a > b => format!("a gap of {a} to {b}, the first larger than the second"),
                None => return None,
            },
            _ => return None,
        };
        Some(format!("has {why}"))
    }

    /// The first operand that isn't an earlier node of the sort needed: refusal 7.
    fn operand(&self) -> Option<String> {
        self.nodes.iter().enumerate().find_map(|(number, node)| {
            let op = node.op;
            let proposition = !matches!(op, 20..=23);
            node.operands().zip(["a", "b"]).find_map(|(operand, field)| {
                let why = if operand >= number {
                    "and operands are earlier nodes"
                } else if is_proposition(self.nodes[operand].op) == proposition {
                    return None;
                } else if proposition {
                    "a formula, where a proposition is needed"
                } else {
                    "a proposition, where a formula is needed"
                };
                let called = called(op);
                Some(format!(
                    "operand {field} of node {number} (op {op}, {called}) is node {operand}, {why}"
                ))
            })
        })
    }

    /// The first clause with a field that can't be so: refusal 8.
    fn clause(&self) -> Option<String> {
        self.clauses.iter().enumerate().find_map(|(number, clause)| {
            Some(format!("clause {number} {}", self.wrong_clause(clause)?))
        })
    }

    fn wrong_clause(&self, clause: &[u8; 11]) -> Option<String> {
        let Some(kind) = kind_of(clause) else {
            return Some(format!("has type {}, and they are 1 to 6", clause[0]));
        };
        if clause[1] > 2 {
            return Some(format!("has role {}, and they are 0 to 2", clause[1]));
        }
        let word = kind.word();
        (0..3).find_map(|part| {
            let (root, mask, d) = (root(clause, part), clause[8 + part], part + 1);
            if part >= kind.parts() {
                let (what, value) = if root != 0 { ("root", root) } else { ("mask", mask.into()) };
                let parts = of(kind.parts(), "part");
                return (value != 0)
                    .then(|| format!("({word}) has {value} for {what} {d}, and it has {parts}"));
            }
            match self.nodes.get(root) {
                None => Some(format!(
                    "({word}) has node {root} for D{d}, and the sheet has {}",
                    of(self.nodes.len(), "node")
                )),
                Some(node) if is_proposition(node.op) => Some(format!(
                    "({word}) has node {root} for D{d}, a proposition, where a formula is needed"
                )),
                Some(_) => None,
            }
        })
    }

    /// The first mask that has too many names, or too few: refusal 9.
    fn mask(&self) -> Option<String> {
        self.clauses.iter().enumerate().find_map(|(number, clause)| {
            let kind = kind_of(clause)?;
            (0..kind.parts()).find_map(|part| {
                let mask = clause[8 + part];
                let high = (self.names..8).find(|u| mask >> u & 1 == 1);
                let reached = self.reached(root(clause, part));
                let lacks = (0..3).find(|u| reached >> u & 1 == 1 && mask >> u & 1 == 0);
                let why = match (high, lacks) {
                    (Some(u), _) => {
                        format!("has a bit for {}", none_of('u', u, self.names, "name"))
                    }
                    (None, Some(u)) => format!("lacks u{u}, which the part reaches"),
                    (None, None) => return None,
                };
                let (word, d) = (kind.word(), part + 1);
                Some(format!("the mask of D{d} in clause {number} ({word}) {why}"))
            })
        })
    }

    /// The names that a node reaches, bit u for name u; operands are earlier nodes.
    fn reached(&self, root: usize) -> u8 {
        let mut masks: Vec<u8> = vec![];
        for node in self.nodes.iter().take(root + 1) {
            let own = match node.op {
                4 | 28 => bit(node.a.into()),
                29 => bit((node.q / 16).into()) | bit((node.q % 16).into()),
                _ => 0,
            };
            let below = node.operands().filter_map(|operand| masks.get(operand));
            masks.push(below.fold(own, |mask, below| mask | below));
        }
        masks.get(root).copied().unwrap_or(0)
    }
}

fn bit(name: usize) -> u8 {
    u8::from(name < 8) << (name % 8)
}

fn kind_of(clause: &[u8; 11]) -> Option<Type> {
    Some(match clause[0] {
        1 => Type::Pref,
        2 => Type::Init,
        3 => Type::Anti,
        4 => Type::Implies,
        5 => Type::Follows,
        6 => Type::Triggers,
        _ => return None,
    })
}

fn root(clause: &[u8; 11], part: usize) -> usize {
    usize::from(clause[2 + 2 * part]) * 256 + usize::from(clause[3 + 2 * part])
}
