//! Nodes written as expressions with the least brackets: what typed sheets and the notation of
//! formulas have in common. Formulas may be thousands of nodes deep, so nothing here recurses.

use crate::sheet::Node;
use std::borrow::Cow;

/// Characters of a line, where it has a joiner to be broken at.
const WIDTH: usize = 100;

/// Blanks of an indentation, and the most that deep brackets get.
const STEP: usize = 4;
const DEEPEST: usize = 40;

/// The signs in which ways of writing differ.
pub(crate) struct Signs {
    point: [&'static str; 2],
    not: &'static str,
    and: &'static str,
    or: &'static str,
    some: &'static str,
    comparisons: [&'static str; 5],
    /// scount and sdur have their proposition in brackets, close to the word.
    called: bool,
}

/// As sheets are typed.
pub(crate) const TYPED: Signs = Signs {
    point: ["<", ">"],
    not: "!",
    and: "&",
    or: "|",
    some: "ex ",
    comparisons: ["<", "<=", "=", ">=", ">"],
    called: true,
};

/// As document 004 writes formulas.
pub(crate) const SIGNED: Signs = Signs {
    point: ["⟨", "⟩"],
    not: "¬",
    and: "∧",
    or: "∨",
    some: "∃",
    comparisons: ["<", "≤", "=", "≥", ">"],
    called: false,
};

/// The same in plain letters, joined as sheets are typed.
pub(crate) const PLAIN: Signs = Signs { called: false, ..TYPED };

/// How tightly a node binds; what stands where a tighter one is needed goes in brackets.
fn level(op: u8) -> u8 {
    match op {
        7 | 22 => 0,
        6 | 21 => 1,
        20 => 2,
        24..=26 => 3,
        5 | 30 => 4,
        _ => 5,
    }
}

/// Least levels: of what `!` stands before, and of what has signs of its own around it.
const AFTER_NOT: u8 = 4;
const ANY: u8 = 0;

/// A piece of an expression. Groups are what one kind of joiner joins; each is on one line or broken
/// at all its joiners.
pub(crate) enum Piece {
    Text(Cow<'static, str>),
    Open,
    Close,
    /// A blank, where a line may be broken.
    Blank,
}

enum Task {
    Write(Piece),
    /// A node where this level is needed, and the op of the joiner that it is the left side of, or 0.
    Node {
        node: usize,
        least: u8,
        left_of: u8,
    },
}

fn text(words: impl Into<Cow<'static, str>>) -> Task {
    Task::Write(Piece::Text(words.into()))
}

fn node(node: u16, least: u8) -> Task {
    Task::Node { node: node.into(), least, left_of: 0 }
}

/// What writes expressions: the nodes, the names that some of them go by, and the signs.
pub(crate) struct Writer<'n> {
    pub nodes: &'n [Node],
    pub names: &'n [Option<String>],
    pub signs: &'n Signs,
}

impl Writer<'_> {
    /// A node written out, with names for those under it that have one.
    pub fn pieces(&self, root: usize) -> Vec<Piece> {
        let mut pieces = vec![];
        let mut tasks = self.written_out(root, 0);
        tasks.reverse();
        while let Some(task) = tasks.pop() {
            match task {
                Task::Write(piece) => pieces.push(piece),
                Task::Node { node, least, left_of } => {
                    tasks.extend(self.needed(node, least, left_of).into_iter().rev())
                }
            }
        }
        pieces
    }

    /// [`Writer::pieces`] by name where the node itself has one.
    pub fn named_pieces(&self, root: usize) -> Vec<Piece> {
        match self.name(root) {
            Some(name) => vec![Piece::Text(name.into())],
            None => self.pieces(root),
        }
    }

    fn name(&self, node: usize) -> Option<String> {
        self.names.get(node).cloned().flatten()
    }

    /// A node by its name, written out, or written out in brackets.
    fn needed(&self, node: usize, least: u8, left_of: u8) -> Vec<Task> {
        if let Some(name) = self.name(node) {
            return vec![text(name)];
        }
        if level(self.nodes[node].op) >= least {
            return self.written_out(node, left_of);
        }
        let mut tasks = self.written_out(node, 0);
        tasks.insert(0, text("("));
        tasks.push(text(")"));
        tasks
    }

    fn written_out(&self, k: usize, left_of: u8) -> Vec<Task> {
        let Node { op, q, a, b } = self.nodes[k];
        let compared = |number: u16| {
            let sign = self.signs.comparisons.get(usize::from(q)).unwrap_or(&"?");
            format!(" {sign} {number}")
        };
        let [before, after] = self.signs.point;
        match op {
            1 => vec![text("false")],
            2 => vec![text("true")],
            3 => vec![text(format!("s{a}"))],
            4 => vec![text(format!("u{a}"))],
            5 | 30 => vec![text(self.signs.not), node(a, AFTER_NOT)],
            6 | 7 | 20..=22 => self.joined(k, left_of),
            16 => vec![text(before), node(a, ANY), text(after)],
            17 => vec![text("["), node(a, ANY), text("]")],
            18 => vec![text("[["), node(a, ANY), text("]]")],
            19 => vec![text("{{"), node(a, ANY), text("}}")],
            23 => vec![text("("), node(a, ANY), text(")*")],
            24 => vec![text(format!("slen{}", compared(b)))],
            25 | 26 => {
                let word = if op == 25 { "scount" } else { "sdur" };
                if self.signs.called {
                    vec![text(word), text("("), node(a, ANY), text(")"), text(compared(b))]
                } else {
                    vec![text(word), text(" "), node(a, AFTER_NOT), text(compared(b))]
                }
            }
            27 => vec![text(format!("draw({q}, s{a})"))],
            28 => vec![text(format!("at(u{a})"))],
            29 => vec![text(format!("gap(u{}, u{}, {a}, {b})", q / 16, q % 16))],
            31 => vec![text(format!("{}u{b}. (", self.signs.some)), node(a, ANY), text(")")],
            _ => vec![text("?")],
        }
    }

    /// Both sides of a joiner. Joiners bind to the left, so the right side has to bind tighter.
    fn joined(&self, k: usize, left_of: u8) -> Vec<Task> {
        let Node { op, a, b, .. } = self.nodes[k];
        let sign = match op {
            20 => "^",
            6 | 21 => self.signs.and,
            _ => self.signs.or,
        };
        let level = level(op);
        let mut tasks = vec![
            Task::Node { node: a.into(), least: level, left_of: op },
            Task::Write(Piece::Blank),
            text(sign),
            text(" "),
            node(b, level + 1),
        ];
        if left_of != op {
            tasks.insert(0, Task::Write(Piece::Open));
            tasks.push(Task::Write(Piece::Close));
        }
        tasks
    }
}

/// Pieces on one line.
pub(crate) fn flat(pieces: &[Piece]) -> String {
    let words = pieces.iter().map(|piece| match piece {
        Piece::Text(text) => text,
        Piece::Blank => " ",
        Piece::Open | Piece::Close => "",
    });
    words.collect()
}

/// Pieces after these words, on as many lines as they need, the last without its end.
pub(crate) fn broken(words: &str, pieces: &[Piece]) -> String {
    let ends = flat_ends(pieces);
    let mut line = Line { text: words.to_string(), column: words.chars().count() };
    // For each group that is open whether it is broken, and how many are.
    let mut open: Vec<bool> = vec![];
    let mut depth = 0;
    for (piece, end) in pieces.iter().zip(ends) {
        match piece {
            Piece::Text(text) => line.write(text),
            Piece::Open => {
                let within_flat = open.last() == Some(&false);
                let breaks = !within_flat && line.column + end > WIDTH;
                open.push(breaks);
                depth += usize::from(breaks);
            }
            Piece::Close => depth -= usize::from(open.pop() == Some(true)),
            Piece::Blank if open.last() == Some(&true) => line.end((STEP * depth).min(DEEPEST)),
            Piece::Blank => line.write(" "),
        }
    }
    line.text
}

struct Line {
    text: String,
    column: usize,
}

impl Line {
    fn write(&mut self, words: &str) {
        self.text += words;
        self.column += words.chars().count();
    }

    /// Goes on in the next line, indented.
    fn end(&mut self, indented: usize) {
        self.text.push('\n');
        self.text.push_str(&" ".repeat(indented));
        self.column = indented;
    }
}

/// For each group the characters that it needs on one line, with what stands after it up to the next
/// blank; for other pieces 0.
fn flat_ends(pieces: &[Piece]) -> Vec<usize> {
    let mut widths = vec![0; pieces.len()];
    // From the last piece back: the characters from here on, those from the next blank on, and the
    // latter as they were where each group closes.
    let (mut here, mut blank) = (0, 0);
    let mut closed: Vec<usize> = vec![];
    for (piece, width) in pieces.iter().zip(&mut widths).rev() {
        match piece {
            Piece::Text(text) => here += text.chars().count(),
            Piece::Blank => {
                here += 1;
                blank = here;
            }
            Piece::Close => closed.push(blank),
            Piece::Open => *width = here - closed.pop().unwrap_or(0),
        }
    }
    widths
}

/// How often each node is used, by the roots and by the nodes that they reach; those that they don't
/// reach are used 0 times.
pub(crate) fn uses(nodes: &[Node], roots: &[usize]) -> Vec<usize> {
    let mut uses = vec![0; nodes.len()];
    roots.iter().for_each(|&root| uses[root] += 1);
    for (k, node) in nodes.iter().enumerate().rev() {
        if uses[k] > 0 {
            node.operands().for_each(|operand| uses[operand] += 1);
        }
    }
    uses
}

/// How many nodes each one is made of when it is written out, what it shares counted again each time.
/// Sharing doubles it with every node, so it stops at the largest number.
pub(crate) fn sizes(nodes: &[Node]) -> Vec<usize> {
    let mut sizes: Vec<usize> = vec![];
    for node in nodes {
        let size = node.operands().fold(1, |size: usize, k| size.saturating_add(sizes[k]));
        sizes.push(size);
    }
    sizes
}

/// Nodes of so many or more, written out, get a name where they are used more than once.
const NAMED: usize = 3;

/// Names for the nodes that are used more than once, f1, f2 … for formulas and p1, p2 … for
/// propositions; a signal, `!s0`, `<s0>` and the like are short enough to be written again.
pub(crate) fn shared_names(nodes: &[Node], roots: &[usize]) -> Vec<Option<String>> {
    let (mut formulas, mut propositions) = (0, 0);
    let counted = uses(nodes, roots).into_iter().zip(sizes(nodes));
    let name = |(node, (uses, size)): (&Node, (usize, usize))| {
        if uses < 2 || size < NAMED {
            return None;
        }
        let (letter, count) =
            if node.is_formula() { ('f', &mut formulas) } else { ('p', &mut propositions) };
        *count += 1;
        Some(format!("{letter}{count}"))
    };
    nodes.iter().zip(counted).map(name).collect()
}

/// A line `let f1 = …`, or more where it is long, for each node that has a name.
pub(crate) fn definitions(writer: &Writer) -> String {
    let mut lines = String::new();
    for (node, name) in writer.names.iter().enumerate() {
        if let Some(name) = name {
            lines += &broken(&format!("let {name} = "), &writer.pieces(node));
            lines.push('\n');
        }
    }
    lines
}
