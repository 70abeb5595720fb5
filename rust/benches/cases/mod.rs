//! The sheets and traces that the benchmarks measure.

#![allow(dead_code)]

use crate::build::Role::*;
use crate::build::{Compare, Node, Part, Sheet, Symbol::*, Trace};
use crate::{generate, plain};

/// Waveforms on two signals: a premise with the first names, an answer that shares one and adds the
/// last, once as implies and once as follows.
pub fn waveforms(names: u16) -> Sheet {
    let mut sheet = Sheet::new(2, names as u8);
    let s = &mut sheet;
    let joined = |s: &mut Sheet, row: Node, u: u16| {
        if u < names {
            let mark = s.mark(u);
            s.chop(row, mark)
        } else {
            row
        }
    };
    let before = s.symbol(LowRun, 0);
    let rise = joined(s, before, 0);
    let high = s.symbol(High, 0);
    let up = s.symbol(HighRun, 0);
    let longer = s.row(&[rise, high, up]);
    let fall = joined(s, longer, 1);
    let low = s.symbol(Low, 0);
    let mut premise = s.chop(fall, low);
    let mut premise_names = 0b001;
    if names > 1 {
        let gap = s.gap(0, 1, 1, 6);
        premise = s.both(premise, gap);
        premise_names = 0b011;
    }

    let any = s.symbol(EitherRun, 1);
    let from_fall = joined(s, any, if names > 1 { 1 } else { 0 });
    let answer_up = s.symbol(EitherRun, 1);
    let up_to = s.chop(from_fall, answer_up);
    let end = joined(s, up_to, 2);
    let rest = s.symbol(EitherRun, 1);
    let answer = s.chop(end, rest);
    let answer_names = if names > 1 { 0b110 } else { 0b001 };

    let p = s.signal(1);
    let twice = s.scount(p, Compare::AtLeast, 2);
    let within = s.slen(Compare::AtMost, 12);
    let limit = s.both(twice, within);
    let there = (1u8 << names) - 1;
    let first = Part(premise, premise_names & there);
    s.implies(Commitment, first, Part(answer, answer_names & there));
    s.follows(Commitment, first, Part(within, 0), Part(limit, 0));
    sheet
}

/// The sheet of the most placements: three names in the premise.
fn three_in_the_premise() -> Sheet {
    let mut sheet = Sheet::new(2, 3);
    let s = &mut sheet;
    let marks = [0, 1, 2].map(|u| s.mark(u));
    let (low, high, any) = (s.symbol(LowRun, 0), s.symbol(HighRun, 0), s.symbol(EitherRun, 0));
    let row = s.row(&[low, marks[0], high, marks[1], low, marks[2], any]);
    let gap = s.gap(0, 2, 3, 20);
    let premise = s.both(row, gap);
    s.implies(Commitment, Part(premise, 0b111), Part(any, 0));
    sheet
}

/// Sixty nodes, and the names in all three parts of a follows: each part has each name between two
/// symbols of a row of its own.
fn in_all_parts(names: u16) -> Sheet {
    let mut sheet = Sheet::new(2, names as u8);
    let s = &mut sheet;
    let mut parts = vec![];
    for part in 0..3 {
        let signal = part % 2;
        let runs = [s.symbol(LowRun, signal), s.symbol(HighRun, signal)];
        let mut row = s.symbol(EitherRun, signal);
        for u in 0..names {
            let mark = s.mark(u);
            row = s.row(&[row, runs[u as usize % 2], mark, runs[(u as usize + 1) % 2]]);
        }
        while s.nodes.len() < 20 * (part as usize + 1) - 1 {
            row = s.chop(row, runs[s.nodes.len() % 2]);
        }
        let any = s.symbol(EitherRun, signal);
        row = s.chop(row, any);
        parts.push(Part(row, (1 << names) - 1));
    }
    s.follows(Commitment, parts[0], parts[1], parts[2]);
    sheet
}

/// 64 nodes, 59 of them chops, and eight clauses that hold.
pub fn chops() -> Sheet {
    let mut sheet = Sheet::new(4, 0);
    let mut rows: Vec<Node> = (0..4).map(|k| sheet.symbol(SteadyRun, k)).collect();
    rows.push(sheet.symbol(Either, 0));
    while sheet.nodes.len() < 64 {
        let (f, g) = (rows[rows.len() - 1], rows[rows.len() - 5]);
        rows.push(sheet.chop(f, g));
    }
    for root in rows[rows.len() - 8..].iter().map(|&row| Part(row, 0)) {
        sheet.implies(Commitment, root, root);
    }
    sheet
}

/// 62 nodes, most of them chops or stars in a row, three names in one anti: nearly all of them reach the
/// name that is moved most. `any` is what the marks stand between, `join` puts one more of it to the
/// row, and `last` compares the last interval's length with 0.
fn marks_in_a_row(
    any: impl Fn(&mut Sheet) -> Node,
    join: impl Fn(&mut Sheet, Node, Node) -> Node,
    last: Compare,
) -> Sheet {
    let mut sheet = Sheet::new(1, 3);
    let s = &mut sheet;
    let any = any(s);
    let marks = [0, 1, 2].map(|u| s.mark(u));
    let last = s.slen(last, 0);
    let moved = s.either(marks[2], any);
    let mut row = moved;
    while s.nodes.len() < 58 {
        row = join(s, row, moved);
    }
    let row = s.row(&[row, marks[0], any, marks[1], last]);
    s.anti(Commitment, Part(row, 0b111));
    sheet
}

/// A stretch of what is always true: every interval.
fn always(s: &mut Sheet) -> Node {
    let truth = s.truth();
    s.stretch(truth)
}

/// Rows with every end. It is broken at [0,0] by the first placement of all; its twin ends in a length
/// that no interval has, so every placement is tried and it holds.
fn stretches_in_a_row(last: Compare) -> Sheet {
    marks_in_a_row(always, |s, row, moved| s.chop(row, moved), last)
}

/// Intervals of at most half the cycles, joined from the right. Few rows of a chop's first operand have
/// all ends of the one after, so what was joined hardly serves again.
fn windows_in_a_row(cycles: usize) -> Sheet {
    let within = |s: &mut Sheet| s.slen(Compare::AtMost, cycles as u16 / 2);
    marks_in_a_row(within, |s, row, moved| s.chop(moved, row), Compare::Less)
}

/// The dearest sheet that was found: intervals of every length but 1, joined from the right. Each row of a
/// chop's first operand has nearly every end, and lacks one of the row after it, so all are joined anew.
fn lengths_in_a_row() -> Sheet {
    let but_one = |s: &mut Sheet| {
        let (less, more) = (s.slen(Compare::Less, 1), s.slen(Compare::More, 1));
        s.either(less, more)
    };
    marks_in_a_row(but_one, |s, row, moved| s.chop(moved, row), Compare::Less)
}

/// A star of a star and so on.
fn stars_in_a_row() -> Sheet {
    marks_in_a_row(always, |s, row, _| s.star(row), Compare::Less)
}

/// 55 counts of the name that is moved most, three names in one anti, which no interval can break. The
/// clause reaches the last count alone.
fn counts() -> Sheet {
    let mut sheet = Sheet::new(1, 3);
    let s = &mut sheet;
    let name = s.name(2);
    let counts = [(); 55].map(|()| s.sdur(name, Compare::AtMost, 1));
    never(s, counts[54]);
    sheet
}

/// The same with 28 counts, joined by 27 ands: the clause reaches them all.
fn counts_reached() -> Sheet {
    let mut sheet = Sheet::new(1, 3);
    let s = &mut sheet;
    let name = s.name(2);
    let counts = [(); 28].map(|()| s.sdur(name, Compare::AtMost, 1));
    let all = counts.into_iter().reduce(|f, g| s.both(f, g)).unwrap();
    never(s, all);
    sheet
}

/// An anti of an interval shorter than any, so that every placement of three names is tried.
fn never(s: &mut Sheet, f: Node) {
    let none = s.slen(Compare::Less, 0);
    let root = s.both(f, none);
    s.anti(Commitment, Part(root, 0b111));
}

/// Forty sheets of one to three clauses drawn with three names, on 64 cycles.
pub fn drawn() -> Vec<Case> {
    let mut random = generate::Random::new(40);
    let drawn = |random: &mut generate::Random| {
        let clauses = random.between(1, 3);
        let shape = generate::Shape { signals: 3, names: 3, nodes: 64, clauses, numbers: 12 };
        let sheet = generate::drawn(random, shape);
        let trace = generate::trace(random, 3, 64).bytes();
        Case { what: String::new(), sheet, trace, cycles: 64 }
    };
    (0..40).map(|_| drawn(&mut random)).collect()
}

/// A trace on which the sheet holds, if one turns up, so that every placement is looked at.
fn trace_for(sheet: &[u8], signals: usize, cycles: usize) -> Vec<u8> {
    let mut random = generate::Random::new(cycles as u64);
    let mut trace = vec![];
    for _ in 0..20 {
        trace = generate::trace(&mut random, signals, cycles).bytes();
        if plain::Checker::new(sheet, &trace).check().finding == plain::Finding::Holds {
            break;
        }
    }
    trace
}

/// What is measured: a sheet on a trace.
pub struct Case {
    pub what: String,
    pub sheet: Sheet,
    pub trace: Vec<u8>,
    pub cycles: usize,
}

fn case_on(what: &str, sheet: Sheet, cycles: usize, trace: Vec<u8>) -> Case {
    Case { what: format!("{what}, {cycles} cycles"), sheet, trace, cycles }
}

fn case(what: &str, sheet: Sheet, cycles: usize) -> Case {
    let trace = trace_for(&sheet.bytes(), sheet.signals as usize, cycles);
    case_on(what, sheet, cycles, trace)
}

const NAMES: [&str; 4] = ["no names", "1 name", "2 names", "3 names"];
const CYCLES: [usize; 3] = [16, 32, 64];

pub fn checks() -> Vec<Case> {
    let mut cases = vec![];
    for (names, what) in (0..).zip(NAMES) {
        cases.extend(CYCLES.map(|cycles| case(what, waveforms(names), cycles)));
    }
    let what = "3 names in the premise";
    cases.extend(CYCLES.map(|cycles| case(what, three_in_the_premise(), cycles)));
    for names in [2, 3] {
        let what = format!("60 nodes, {names} names in all parts of a follows");
        cases.extend(CYCLES.map(|cycles| case(&what, in_all_parts(names), cycles)));
    }
    let what = "64 nodes, 59 chops, 8 clauses";
    cases.extend(CYCLES.map(|cycles| case(what, chops(), cycles)));
    let steady = |what: &str, sheet: Sheet, cycles: usize| {
        let trace = generate::trace(&mut generate::Random::new(1), 1, cycles).bytes();
        case_on(what, sheet, cycles, trace)
    };
    let anti = |what: &str, sheet: fn(usize) -> Sheet| {
        let what = format!("62 nodes, 3 names in an anti {what}");
        CYCLES.map(|cycles| steady(&what, sheet(cycles), cycles))
    };
    cases.extend(anti("broken at once", |_| stretches_in_a_row(Compare::AtLeast)));
    cases.extend(anti("that holds", |_| stretches_in_a_row(Compare::Less)));
    cases.extend(anti("of windows", windows_in_a_row));
    cases.extend(anti("of lengths but 1", |_| lengths_in_a_row()));
    cases.extend(anti("of stars", |_| stars_in_a_row()));
    let what = "55 counts, one of them in an anti with 3 names";
    cases.extend([16, 32].map(|cycles| steady(what, counts(), cycles)));
    let what = "28 counts, all of them in an anti with 3 names";
    cases.extend([16, 32].map(|cycles| steady(what, counts_reached(), cycles)));
    cases
}

/// What a board is fed, 64 cycles: few names and many nodes, and the most placements.
pub fn boards() -> Vec<Case> {
    let named = (0..).zip(NAMES).map(|(names, what)| (what, waveforms(names)));
    let more = [
        ("64 nodes, 59 chops, 8 clauses", chops()),
        ("3 names in the premise", three_in_the_premise()),
    ];
    named.chain(more).map(|(what, sheet)| case(what, sheet, 64)).collect()
}

/// A sheet on a trace, with none, one, about half and all that can be of its clauses as advice.
pub struct Advised {
    pub what: &'static str,
    pub trace: Vec<u8>,
    /// How many of the last clauses are advice.
    pub clauses: [usize; 4],
    pub sheets: [Sheet; 4],
}

/// Eight clauses with one name on 64 cycles. All hold; or the first is a commitment that is broken at
/// once, so that the others are searched only where they are advice.
pub fn advice() -> [Advised; 2] {
    let mut holding = waveforms(1);
    let trace = trace_for(&holding.bytes(), 2, 64);
    holding.clauses = (0..8).map(|c| holding.clauses[c % 2]).collect();
    let mut broken = holding.clone();
    let any = broken.anywhere();
    broken.anti(Commitment, Part(any, 0));
    broken.clauses.swap_remove(0);
    let advised = |what, sheet: &Sheet, clauses: [usize; 4]| {
        let last = |count: usize| (8 - count..8).map(|c| 1 << c).sum();
        let sheets = clauses.map(|count| sheet.with_advice(last(count)));
        Advised { what, trace: trace.clone(), clauses, sheets }
    };
    [
        advised("8 clauses that hold", &holding, [0, 1, 4, 8]),
        advised("7 clauses after one that is broken at once", &broken, [0, 1, 4, 7]),
    ]
}

/// A sheet of 64 nodes, most of them chops, on 64 cycles. The less its four lines change, the more
/// ends has each row of a chop.
pub fn joins() -> Vec<Case> {
    let random = trace_for(&chops().bytes(), 4, 64);
    let every = |minutes: u16| {
        let changed = |t: u16| (0..4).map(|k| ((t + k) / minutes % 2) << k).sum();
        Trace::new(4, &(0..64).map(changed).collect::<Vec<u16>>()).bytes()
    };
    [
        ("lines that change at random", random),
        ("lines that change every eighth cycle", every(8)),
        ("lines that never change", every(128)),
    ]
    .map(|(what, trace)| Case { what: what.to_string(), sheet: chops(), trace, cycles: 64 })
    .into()
}

/// The cases of a table, each with its node.
pub fn tables() -> Vec<(Case, usize)> {
    let mut cases = vec![];
    for (names, what) in (0..).zip(NAMES) {
        let sheet = waveforms(names);
        let node = sheet.clauses[0][3] as usize;
        cases.extend(CYCLES.map(|cycles| (case(what, waveforms(names), cycles), node)));
    }
    cases.extend(CYCLES.map(|cycles| (case("64 nodes, 59 chops", chops(), cycles), 63)));
    cases
}

/// Sheets that are translated: eight clauses that need three of 64 gaps, and eight that need all of
/// 32 gaps, among them.
pub fn translations() -> [(&'static str, Sheet); 5] {
    let mut few = Sheet::new(1, 3);
    few.nodes = vec![[29, 0x01, 0, 1, 0, 2]; 64];
    few.clauses = vec![[5, 1, 0, 63, 0, 62, 0, 61, 7, 7, 7]; 8];
    let mut all = Sheet::new(1, 3);
    let gaps: Vec<Node> = (0..32).map(|k| all.gap(k % 3, (k + 1) % 3, 1, 2)).collect();
    let root = gaps.into_iter().reduce(|root, gap| all.both(root, gap)).unwrap();
    for _ in 0..8 {
        all.triggers(Commitment, Part(root, 7), Part(root, 7), Part(root, 7));
    }
    [
        ("waveforms, no names", waveforms(0)),
        ("waveforms, 3 names", waveforms(3)),
        ("64 nodes, 59 chops", chops()),
        ("3 of 64 gaps, 8 clauses, 3 names", few),
        ("32 gaps, 8 clauses, 3 names", all),
    ]
}

/// Where the names of a table's case stand.
pub fn places(cycles: usize) -> [usize; 3] {
    [cycles / 4, cycles / 2, cycles - 1]
}
