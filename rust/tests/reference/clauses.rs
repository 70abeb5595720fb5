//! Placements, the six clause types, the requirement and the verdict. A name is placed inside the
//! interval of the first part that lists it and keeps that cycle in later parts (request 4). A verdict
//! is a finding of the requirement with the advice that fails beside it (request 5).

use super::meaning::{Marks, Meaning};
use super::stored::{Clause, Sheet};

/// A map from the names of a part to cycles.
type Placement = [Option<usize>; 3];

#[derive(Clone, Copy)]
struct Part {
    root: usize,
    names: u8,
}

impl Part {
    fn has(self, name: usize) -> bool {
        has(self.names, name)
    }
}

fn has(names: u8, name: usize) -> bool {
    names >> name & 1 == 1
}

/// Whether names that both place have the same cycle.
fn agree(one: &Placement, other: &Placement) -> bool {
    (0..3).all(|name| match (one[name], other[name]) {
        (Some(x), Some(y)) => x == y,
        _ => true,
    })
}

fn marks(placement: &Placement) -> Marks {
    placement.map(|cycle| cycle.map_or(0, |t| 1 << t))
}

/// Where a name lies in a part that isn't the first to list it.
#[derive(Clone, Copy, PartialEq, Eq)]
pub enum Rule {
    /// Where the first part has it.
    Stays,
    /// There, and inside that part's interval: the rule before request 4, which tells the sheets on
    /// which the request decides.
    Inside,
}

pub struct Clauses<'a> {
    meaning: Meaning<'a>,
    cycles: usize,
    rule: Rule,
}

/// The three cycles of a broken interval.
pub type Cycles = (usize, usize, usize);

impl<'a> Clauses<'a> {
    pub fn new(sheet: &'a Sheet, trace: &'a [u16], rule: Rule) -> Self {
        Clauses { meaning: Meaning::new(&sheet.nodes, trace), cycles: trace.len(), rule }
    }

    /// Every placement of the part's names where it is asked on [x,y]: a name lies in [x,y], or
    /// anywhere in the trace if a part before lists it.
    fn placements(&self, part: Part, before: u8, x: usize, y: usize) -> Vec<Placement> {
        let mut all: Vec<Placement> = vec![[None; 3]];
        for name in (0..3).filter(|&name| part.has(name)) {
            let stays = has(before, name) && self.rule == Rule::Stays;
            let cycles = if stays { 0..=self.cycles - 1 } else { x..=y };
            let mut longer = vec![];
            for placement in all {
                for cycle in cycles.clone() {
                    let mut with_name = placement;
                    with_name[name] = Some(cycle);
                    longer.push(with_name);
                }
            }
            all = longer;
        }
        all
    }

    fn on(&self, part: Part, placement: &Placement, x: usize, y: usize) -> bool {
        self.meaning.holds(part.root, marks(placement), x, y)
    }

    /// Ξ: on [x,y] and on no shorter [x,z], marks unmoved.
    fn shortest(&self, part: Part, placement: &Placement, x: usize, y: usize) -> bool {
        self.on(part, placement, x, y) && (x..y).all(|z| !self.on(part, placement, x, z))
    }

    /// Whether some placement of the part's names that agrees with those of the parts before gives
    /// the part on [x,y].
    fn given(&self, part: Part, earlier: &[(Part, &Placement)], x: usize, y: usize) -> bool {
        let before = earlier.iter().fold(0, |names, (part, _)| names | part.names);
        self.placements(part, before, x, y).iter().any(|placement| {
            earlier.iter().all(|(_, other)| agree(placement, other))
                && self.on(part, placement, x, y)
        })
    }

    /// The clause's first broken interval, by i, then j, then k.
    pub fn first_broken(&self, clause: &Clause) -> Option<Cycles> {
        let part = |p: usize| Part { root: clause.roots[p], names: clause.masks[p] };
        let last = self.cycles - 1;
        match clause.clause_type {
            1 => (0..=last).find(|&j| self.pref_breaks(part(0), j)).map(|j| (0, j, j)),
            2 => (0..=last).find(|&j| self.init_breaks(part(0), part(1), j)).map(|j| (0, j, j)),
            3 => self.intervals().find(|&(i, j)| self.anti_breaks(part(0), i, j)).map(doubled),
            4 => self
                .intervals()
                .find(|&(i, j)| self.implies_breaks(part(0), part(1), i, j))
                .map(doubled),
            5 | 6 => {
                let start = |i, j| if clause.clause_type == 5 { j } else { i };
                self.intervals().find_map(|(i, j)| {
                    let x = start(i, j);
                    (x..=last)
                        .find(|&k| self.limited_breaks(part(0), part(1), part(2), i, j, x, k))
                        .map(|k| (i, j, k))
                })
            }
            clause_type => panic!("no clause type: {clause_type}"),
        }
    }

    /// Whether the clause is broken at i, j and k with just these names, those of its premise, on just
    /// these cycles.
    pub fn breaks_with(&self, clause: &Clause, (i, j, k): Cycles, names: Placement) -> bool {
        let part = |p: usize| Part { root: clause.roots[p], names: clause.masks[p] };
        let (d1, d2, d3) = (part(0), part(1), part(2));
        let of = |part: Part| [0, 1, 2].map(|name| names[name].filter(|_| part.has(name)));
        let only = |mask: u8| (0..3).all(|name| names[name].is_some() == has(mask, name));
        let placed = |part: Part, before: u8, x, y| {
            self.placements(part, before, x, y).contains(&of(part))
                && self.on(part, &of(part), x, y)
        };
        let unanswered = |part: Part,
                          earlier: &[(Part, &Placement)],
                          x,
                          mut ends: std::ops::RangeInclusive<usize>| {
            !ends.any(|l| self.given(part, earlier, x, l))
        };
        match clause.clause_type {
            1 => only(0) && self.pref_breaks(d1, j),
            2 => {
                only(d2.names) && placed(d2, 0, 0, j) && unanswered(d1, &[(d2, &of(d2))], 0, 0..=j)
            }
            3 => only(d1.names) && placed(d1, 0, i, j),
            4 => {
                only(d1.names) && placed(d1, 0, i, j) && unanswered(d2, &[(d1, &of(d1))], i, j..=j)
            }
            5 | 6 => {
                let x = if clause.clause_type == 5 { j } else { i };
                only(d1.names | d3.names)
                    && placed(d1, 0, i, j)
                    && placed(d3, d1.names, x, k)
                    && self.shortest(d3, &of(d3), x, k)
                    && unanswered(d2, &[(d1, &of(d1)), (d3, &of(d3))], x, x..=k)
            }
            clause_type => panic!("no clause type: {clause_type}"),
        }
    }

    fn intervals(&self) -> impl Iterator<Item = (usize, usize)> {
        let cycles = self.cycles;
        (0..cycles).flat_map(move |i| (i..cycles).map(move |j| (i, j)))
    }

    fn pref_breaks(&self, d1: Part, j: usize) -> bool {
        !self.given(d1, &[], 0, j)
    }

    fn init_breaks(&self, d1: Part, d2: Part, j: usize) -> bool {
        self.placements(d2, 0, 0, j).iter().any(|two| {
            self.on(d2, two, 0, j) && !(0..=j).any(|k| self.given(d1, &[(d2, two)], 0, k))
        })
    }

    fn anti_breaks(&self, d1: Part, i: usize, j: usize) -> bool {
        self.given(d1, &[], i, j)
    }

    fn implies_breaks(&self, d1: Part, d2: Part, i: usize, j: usize) -> bool {
        self.placements(d1, 0, i, j)
            .iter()
            .any(|one| self.on(d1, one, i, j) && !self.given(d2, &[(d1, one)], i, j))
    }

    /// follows, where x is j, and triggers, where x is i; names are placed in the order D1, D3, D2.
    #[allow(clippy::too_many_arguments)]
    fn limited_breaks(
        &self,
        d1: Part,
        d2: Part,
        d3: Part,
        i: usize,
        j: usize,
        x: usize,
        k: usize,
    ) -> bool {
        self.placements(d1, 0, i, j).iter().any(|one| {
            self.on(d1, one, i, j)
                && self.placements(d3, d1.names, x, k).iter().any(|three| {
                    agree(one, three)
                        && self.shortest(d3, three, x, k)
                        && !(x..=k).any(|l| self.given(d2, &[(d1, one), (d3, three)], x, l))
                })
        })
    }
}

fn doubled((i, j): (usize, usize)) -> Cycles {
    (i, j, j)
}

/// Whether some assumption fails or every commitment holds; advice is passed over.
pub fn requirement(sheet: &Sheet, trace: &[u16]) -> bool {
    let clauses = Clauses::new(sheet, trace, Rule::Stays);
    let holds = |clause: &Clause| clauses.first_broken(clause).is_none();
    let assumptions = || sheet.clauses.iter().filter(|clause| clause.role == 0);
    let commitments = || sheet.clauses.iter().filter(|clause| clause.role == 1);
    assumptions().any(|clause| !holds(clause)) || commitments().all(holds)
}

#[derive(Clone, Copy, Debug, PartialEq, Eq)]
pub enum Finding {
    Holds,
    Excused(usize),
    Broken(usize, usize, usize, usize),
}

#[derive(Clone, Copy, Debug, PartialEq, Eq)]
pub struct Verdict {
    pub finding: Finding,
    pub advice: u8,
}

pub fn verdict(sheet: &Sheet, trace: &[u16]) -> Verdict {
    let finding = finding_by(Rule::Stays, sheet, trace);
    Verdict { finding, advice: advice(sheet, trace) }
}

pub fn finding_by(rule: Rule, sheet: &Sheet, trace: &[u16]) -> Finding {
    let clauses = Clauses::new(sheet, trace, rule);
    for (number, clause) in sheet.clauses.iter().enumerate() {
        if clause.role == 0 && clauses.first_broken(clause).is_some() {
            return Finding::Excused(number);
        }
    }
    for (number, clause) in sheet.clauses.iter().enumerate() {
        if clause.role == 1 {
            if let Some((i, j, k)) = clauses.first_broken(clause) {
                return Finding::Broken(number, i, j, k);
            }
        }
    }
    Finding::Holds
}

/// The byte whose bit k is set exactly if clause k is advice and fails.
pub fn advice(sheet: &Sheet, trace: &[u16]) -> u8 {
    let clauses = Clauses::new(sheet, trace, Rule::Stays);
    let mut byte = 0;
    for (number, clause) in sheet.clauses.iter().enumerate() {
        if clause.role == 2 && clauses.first_broken(clause).is_some() {
            byte += 1 << number;
        }
    }
    byte
}
