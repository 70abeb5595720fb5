//! What became of each clause of a sheet on a trace. Nothing of it is computed here: a clause is laid
//! over the trace alone, with its own answer or with one that is never given, and tables say under which
//! names it breaks.

use crate::bytes::{self, ROWS, WORDS};
use crate::sheet::{Clause, Node, Part, Role, Sheet, Type};
use crate::{Error, Finding, Place, Trace, Verdict};

/// What became of a clause, whatever its role.
#[derive(Clone, Copy, Debug, PartialEq, Eq, Hash)]
#[non_exhaustive]
pub enum Outcome {
    /// It holds. Where its type has a premise, `asked` is the first place where that came; pref and anti
    /// have none.
    Holds { asked: Option<Place> },
    /// It holds, since its premise never came.
    NeverAsked,
    /// It fails: its first broken place, and where the names of its premise stood there. The names of an
    /// answer that was not given stand nowhere.
    Fails { place: Place, names: [Option<usize>; 3] },
}

/// The verdict of a sheet on a trace, and what became of each clause.
#[derive(Clone, Debug, PartialEq, Eq, Hash)]
pub struct Explanation {
    pub verdict: Verdict,
    pub clauses: Vec<Outcome>,
}

/// Explains the verdict of a sheet on a trace; refused only by 12, where the trace has another number of
/// signals.
///
/// ```
/// use fasunqir::{explain, Outcome, Place, Sheet};
///
/// // Whatever starts with s0 has s1 within two minutes; s2 is followed by nothing that anyone saw.
/// let sheet: Sheet = "3 1\n\
///     require implies(<s0> & slen = 2 & (at(u0) ^ slen = 2): u0, scount(s1) >= 1:)\n\
///     require implies(<s2>:, <s1>:)\n"
///     .parse()
///     .unwrap();
/// let trace = "-\ns0\n-\n-\ns1\n".parse::<fasunqir::Trace>().unwrap().with_signals(3).unwrap();
///
/// let explanation = explain(&sheet, &trace).unwrap();
/// assert_eq!(explanation.verdict.to_string(), "BROKEN 0 1 3 3 0");
/// let place = Place { clause: 0, i: 1, j: 3, k: 3 };
/// assert_eq!(explanation.clauses[0], Outcome::Fails { place, names: [Some(1), None, None] });
/// assert_eq!(explanation.clauses[1], Outcome::NeverAsked);
/// ```
pub fn explain(sheet: &Sheet, trace: &Trace) -> Result<Explanation, Error> {
    let verdict = sheet.check(trace)?;
    let clauses = (0..sheet.clauses().len()).map(|clause| outcome(sheet, trace, clause)).collect();
    Ok(Explanation { verdict, clauses })
}

fn outcome(sheet: &Sheet, trace: &Trace, number: usize) -> Outcome {
    let clause = &sheet.clauses()[number];
    let alone = Alone::new(sheet, clause).expect("a clause has at most all nodes of its sheet");
    let numbered = |place: Place| Place { clause: number, ..place };
    if let Some(place) = alone.broken(trace) {
        return Outcome::Fails { place: numbered(place), names: alone.names_at(trace, place) };
    }
    if clause.answer().is_none() {
        return Outcome::Holds { asked: None };
    }
    match Alone::unanswered(sheet, clause).map(|unanswered| unanswered.broken(trace)) {
        Some(None) => Outcome::NeverAsked,
        Some(asked) => Outcome::Holds { asked: asked.map(numbered) },
        // no node is left for an answer that is never given
        None => Outcome::Holds { asked: None },
    }
}

impl Clause {
    /// Which of its parts, from 0, is the answer to the others; they are the premise.
    fn answer(&self) -> Option<usize> {
        match self.kind {
            Type::Pref | Type::Anti => None,
            Type::Init => Some(0),
            Type::Implies | Type::Follows | Type::Triggers => Some(1),
        }
    }
}

/// A clause as the only one of a sheet, a commitment, with no more nodes than it reaches.
struct Alone {
    sheet: Sheet,
    clause: Clause,
}

/// `slen < 0`, which no interval has.
const NEVER: Node = Node { op: 24, q: 0, a: 0, b: 0 };

impl Alone {
    fn new(sheet: &Sheet, clause: &Clause) -> Option<Alone> {
        Alone::of(sheet, sheet.nodes(), clause)
    }

    /// The clause with an answer that is never given: it is broken exactly where it is asked.
    fn unanswered(sheet: &Sheet, clause: &Clause) -> Option<Alone> {
        let mut nodes = sheet.nodes();
        let mut clause = clause.clone();
        let answer = clause.answer()?;
        clause.parts[answer] = Part { root: nodes.len(), names: 0 };
        nodes.push(NEVER);
        Alone::of(sheet, nodes, &clause)
    }

    /// The clause over those of the nodes that it reaches; none where these are too many for a sheet.
    fn of(sheet: &Sheet, nodes: Vec<Node>, clause: &Clause) -> Option<Alone> {
        let mut reached = vec![false; nodes.len()];
        clause.parts.iter().for_each(|part| reached[part.root] = true);
        for k in (0..nodes.len()).rev() {
            if reached[k] {
                nodes[k].operands().for_each(|operand| reached[operand] = true);
            }
        }
        let mut kept = vec![];
        let mut number = vec![0; nodes.len()];
        for k in (0..nodes.len()).filter(|&k| reached[k]) {
            number[k] = kept.len();
            kept.push(nodes[k].renumbered(&number));
        }
        let parts =
            clause.parts.iter().map(|part| Part { root: number[part.root], ..*part }).collect();
        let clause = Clause { kind: clause.kind, role: Role::Commitment, parts };
        let sheet =
            Sheet::made(sheet.signals(), sheet.names(), &kept, std::slice::from_ref(&clause))
                .ok()?;
        Some(Alone { sheet, clause })
    }

    /// Its first broken place.
    fn broken(&self, trace: &Trace) -> Option<Place> {
        match self
            .sheet
            .check(trace)
            .expect("the sheet has its signals from the one that was asked")
            .finding
        {
            Finding::Broken(place) => Some(place),
            _ => None,
        }
    }

    /// Where the names of the premise stand when the clause is broken at a place, by tables under one
    /// placement after the other.
    fn names_at(&self, trace: &Trace, place: Place) -> [Option<usize>; 3] {
        let Place { i, j, k, .. } = place;
        let mut tables = Tables::new(&self.sheet, trace);
        let parts = &self.clause.parts;
        let (premise, third, answer, start) = match self.clause.kind {
            Type::Pref => return [None; 3],
            Type::Anti => (parts[0], None, None, i),
            Type::Init => (parts[1], None, Some((parts[0], 0)), i),
            // an answer of implies has to end where the premise does
            Type::Implies => (parts[0], None, Some((parts[1], j)), i),
            Type::Follows => (parts[0], Some(parts[2]), Some((parts[1], j)), j),
            Type::Triggers => (parts[0], Some(parts[2]), Some((parts[1], i)), i),
        };
        let third_names = third.map_or(0, |part| part.names & !premise.names);
        let answer_names = answer.map_or(0, |(part, _)| part.names & !premise.names & !third_names);
        for first in placements([None; 3], premise.names, i, j) {
            if tables.row(premise, first, i) >> j & 1 == 0 {
                continue;
            }
            for both in placements(first, third_names, start, k) {
                if third.is_some_and(|part| {
                    tables.row(part, both, start).trailing_zeros() as usize != k
                }) {
                    continue;
                }
                let answered = answer.is_some_and(|(part, least)| {
                    placements(both, answer_names, start, k).any(|all| {
                        let inside =
                            (0..3).filter(|&u| answer_names >> u & 1 == 1).filter_map(|u| all[u]);
                        let end = inside.max().unwrap_or(0).max(least);
                        tables.row(part, all, start) & ends(end, k) != 0
                    })
                });
                if !answered {
                    return both;
                }
            }
        }
        // not reached: the clause is broken there under some placement
        [None; 3]
    }
}

/// The row of ends from `first` to `last`.
fn ends(first: usize, last: usize) -> u64 {
    (first..=last).fold(0, |row, end| row | 1 << end)
}

/// The given placement with these names besides, each on a cycle from `x` to `y`.
fn placements(
    given: [Option<usize>; 3],
    names: u8,
    x: usize,
    y: usize,
) -> impl Iterator<Item = [Option<usize>; 3]> {
    let cycles = move |name: usize| if names >> name & 1 == 1 { x..=y } else { 0..=0 };
    cycles(0).flat_map(move |c0| {
        cycles(1).flat_map(move |c1| {
            cycles(2).map(move |c2| {
                let mut placement = given;
                for (name, cycle) in [c0, c1, c2].into_iter().enumerate() {
                    if names >> name & 1 == 1 {
                        placement[name] = Some(cycle);
                    }
                }
                placement
            })
        })
    })
}

/// Tables of a sheet on a trace, in words that are lent once.
struct Tables<'a> {
    sheet: &'a Sheet,
    trace: &'a Trace,
    words: Vec<u64>,
    rows: [u64; ROWS],
}

impl<'a> Tables<'a> {
    fn new(sheet: &'a Sheet, trace: &'a Trace) -> Tables<'a> {
        Tables { sheet, trace, words: vec![0; WORDS], rows: [0; ROWS] }
    }

    /// The ends of the part from a cycle on, under a placement; names that it doesn't list may stand
    /// anywhere.
    fn row(&mut self, part: Part, placement: [Option<usize>; 3], from: usize) -> u64 {
        let cycles = placement.map(|cycle| cycle.unwrap_or(0));
        let (sheet, trace) = (self.sheet.as_bytes(), self.trace.as_bytes());
        bytes::table_with(sheet, trace, part.root, cycles, &mut self.words, &mut self.rows).expect(
            "a part's root is a formula node, and its names are put on cycles of the trace",
        );
        self.rows[from]
    }
}
