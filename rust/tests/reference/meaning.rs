//! When a proposition holds at a cycle and a formula on an interval, for the ops of both kinds.

use super::stored::Node;
use std::cell::{Cell, RefCell};
use std::collections::HashMap;
use std::rc::Rc;

/// A column for each name, a string of zeros and ones: bit t says whether the name is marked at
/// cycle t.
pub type Marks = [u128; 3];

/// What was found already under some marks: for a node, b and e, 0 nothing, 1 false, 2 true. A star
/// and the nodes that several others share would take forever without it.
type Found = Rc<Vec<Cell<u8>>>;

/// Entries of `Found` that are kept at a time.
const KEPT: usize = 1 << 28;

pub struct Meaning<'a> {
    nodes: &'a [Node],
    trace: &'a [u16],
    found: RefCell<HashMap<Marks, Found>>,
}

impl<'a> Meaning<'a> {
    pub fn new(nodes: &'a [Node], trace: &'a [u16]) -> Self {
        assert!((1..=128).contains(&trace.len()));
        Meaning { nodes, trace, found: RefCell::default() }
    }

    /// Whether a formula node holds from cycle b to cycle e.
    pub fn holds(&self, node: usize, marks: Marks, b: usize, e: usize) -> bool {
        let under = Under { meaning: self, marks, found: self.found_under(marks) };
        under.holds(node, b, e)
    }

    fn found_under(&self, marks: Marks) -> Found {
        let cells = self.nodes.len() * self.trace.len() * self.trace.len();
        let mut found = self.found.borrow_mut();
        if !found.contains_key(&marks) && (found.len() + 1) * cells > KEPT {
            found.clear();
        }
        found.entry(marks).or_insert_with(|| Rc::new(vec![Cell::new(0); cells])).clone()
    }
}

struct Under<'a> {
    meaning: &'a Meaning<'a>,
    marks: Marks,
    found: Found,
}

impl Under<'_> {
    fn remembered(&self, node: usize, b: usize, e: usize, find: impl Fn() -> bool) -> bool {
        let cycles = self.meaning.trace.len();
        let cell = &self.found[(node * cycles + b) * cycles + e];
        if cell.get() == 0 {
            cell.set(1 + find() as u8);
        }
        cell.get() == 2
    }

    fn signal(&self, k: usize, t: usize) -> bool {
        self.meaning.trace[t] >> k & 1 == 1
    }

    fn marked(&self, name: usize, t: usize) -> bool {
        self.marks[name] >> t & 1 == 1
    }

    /// Whether a proposition node holds at cycle t.
    fn at(&self, node: usize, t: usize) -> bool {
        let Node { op, a, b, .. } = self.meaning.nodes[node];
        self.remembered(node, t, t, || match op {
            1 => false,
            2 => true,
            3 => self.signal(a, t),
            4 => self.marked(a, t),
            5 => !self.at(a, t),
            6 => self.at(a, t) && self.at(b, t),
            7 => self.at(a, t) || self.at(b, t),
            _ => panic!("no proposition: {op}"),
        })
    }

    fn holds(&self, node: usize, b0: usize, e0: usize) -> bool {
        self.remembered(node, b0, e0, || self.find(node, b0, e0))
    }

    fn find(&self, node: usize, b0: usize, e0: usize) -> bool {
        let Node { op, q, a, b } = self.meaning.nodes[node];
        match op {
            16 => self.at(a, b0),
            17 => (b0..e0).all(|t| self.at(a, t)),
            18 => (b0..=e0).all(|t| self.at(a, t)),
            19 => e0 == b0 + 1 && self.at(a, b0),
            20 => (b0..=e0).any(|i| self.holds(a, b0, i) && self.holds(b, i, e0)),
            21 => self.holds(a, b0, e0) && self.holds(b, b0, e0),
            22 => self.holds(a, b0, e0) || self.holds(b, b0, e0),
            23 => {
                b0 == e0 || (b0 + 1..=e0).any(|i| self.holds(a, b0, i) && self.holds(node, i, e0))
            }
            24 => compares(e0 - b0, q, b),
            25 => compares((b0..=e0).filter(|&t| self.at(a, t)).count(), q, b),
            26 => compares((b0..e0).filter(|&t| self.at(a, t)).count(), q, b),
            27 => self.drawn(q, a, b0, e0),
            28 => b0 == e0 && self.marked(a, b0),
            29 => {
                let (from, to) = ((q / 16) as usize, (q % 16) as usize);
                (b0..=e0).any(|x| {
                    (x..=e0).any(|y| {
                        self.marked(from, x) && self.marked(to, y) && a <= y - x && y - x <= b
                    })
                })
            }
            30 => !self.holds(a, b0, e0),
            31 => {
                let cycles = self.meaning.trace.len();
                assert!(cycles < 20, "too many columns");
                (0..1 << cycles).any(|column| {
                    let mut marks = self.marks;
                    marks[b] = column;
                    self.meaning.holds(a, marks, b0, e0)
                })
            }
            _ => panic!("no formula: {op}"),
        }
    }

    fn drawn(&self, symbol: u8, k: usize, b0: usize, e0: usize) -> bool {
        let low = || (b0..e0).all(|t| !self.signal(k, t));
        let high = || (b0..e0).all(|t| self.signal(k, t));
        match symbol {
            0 => e0 == b0 + 1 && !self.signal(k, b0),
            1 => e0 == b0 + 1 && self.signal(k, b0),
            2 | 3 => e0 == b0 + 1,
            4 => low(),
            5 => high(),
            6 => true,
            7 => low() || high(),
            _ => panic!("no symbol: {symbol}"),
        }
    }
}

fn compares(measured: usize, comparison: u8, with: usize) -> bool {
    match comparison {
        0 => measured < with,
        1 => measured <= with,
        2 => measured == with,
        3 => measured >= with,
        4 => measured > with,
        _ => panic!("no comparison: {comparison}"),
    }
}
