//! Request 5: the finding passes advice over, and the byte beside it tells which advice fails.

use super::{names, Case};
use crate::build::Role::{self, *};
use crate::build::{Compare, Part, Sheet, Trace};
use crate::reference::clauses::Finding::{self, *};
use crate::reference::clauses::Verdict;

/// Signals of the trace. A clause here says that one of them is never high: it fails for the first
/// two, at cycle 2 and at cycle 1, and holds for the third.
const AT_2: u16 = 0;
const AT_1: u16 = 1;
const NEVER: u16 = 2;

fn trace() -> Trace {
    Trace::drawn(&["0011", "0101", "0000"])
}

fn never_high(clauses: &[(Role, u16)]) -> Sheet {
    let mut sheet = Sheet::new(3, 0);
    let high = [AT_2, AT_1, NEVER].map(|k| {
        let signal = sheet.signal(k);
        sheet.point(signal)
    });
    for &(role, k) in clauses {
        sheet.anti(role, Part(high[k as usize], 0));
    }
    sheet
}

/// Each of the six types once, failing or holding on every trace, and a commitment that holds.
fn every_type(role: Role, fails: bool) -> Sheet {
    let mut sheet = Sheet::new(3, 0);
    let s = &mut sheet;
    let point = Part(s.slen(Compare::Equal, 0), 0);
    let any = Part(s.anywhere(), 0);
    let never = Part(s.slen(Compare::Less, 0), 0);
    let (said, unsaid) = if fails { (never, any) } else { (any, never) };
    s.pref(role, said);
    s.init(role, said, any);
    s.anti(role, unsaid);
    s.implies(role, any, said);
    s.follows(role, point, said, point);
    s.triggers(role, point, said, point);
    s.pref(Commitment, any);
    sheet
}

/// A case and the line that the program prints.
pub struct Advised {
    pub case: Case,
    pub line: &'static str,
}

fn advised(
    what: &'static str,
    sheet: &Sheet,
    finding: Finding,
    advice: u8,
    line: &'static str,
) -> Advised {
    let case = Case::new(what, sheet, &trace(), finding);
    Advised { case: Case { verdict: Verdict { finding, advice }, ..case }, line }
}

#[rustfmt::skip]
pub fn cases() -> Vec<Advised> {
    let of = |what, clauses: &[(Role, u16)], finding, advice, line| {
        advised(what, &never_high(clauses), finding, advice, line)
    };
    let (a, c, r) = (Assumption, Commitment, Advice);
    let alternating: Vec<(Role, u16)> = (0..8).map(|k| (r, [NEVER, AT_1][k % 2])).collect();
    let beside = |k: usize, others: u16, advice: u16| {
        let mut clauses = [(c, others); 8];
        clauses[k] = (r, advice);
        clauses
    };
    vec![
        of("fails, and the requirement holds", &[(c, NEVER), (r, AT_2)], Holds, 0b10, "HOLDS 2"),
        of("fails, and an assumption too", &[(a, NEVER), (a, AT_2), (r, AT_1), (c, AT_2)],
            Excused(1), 0b100, "EXCUSED 1 4"),
        of("fails, and a commitment too", &[(c, AT_2), (r, AT_1), (r, AT_2)],
            Broken(0, 2, 2, 2), 0b110, "BROKEN 0 2 2 2 6"),
        of("holds like the rest", &[(r, NEVER), (c, NEVER)], Holds, 0, "HOLDS 0"),
        of("holds beside a failing assumption", &[(r, NEVER), (a, AT_1)], Excused(1), 0, "EXCUSED 1 0"),
        of("holds beside a failing commitment", &[(r, NEVER), (c, AT_1)],
            Broken(1, 1, 1, 1), 0, "BROKEN 1 1 1 1 0"),

        of("one and nothing else, fails", &[(r, AT_2)], Holds, 1, "HOLDS 1"),
        of("one and nothing else, holds", &[(r, NEVER)], Holds, 0, "HOLDS 0"),
        of("eight, and all fail", &[(r, AT_2); 8], Holds, 255, "HOLDS 255"),
        of("eight, and all hold", &[(r, NEVER); 8], Holds, 0, "HOLDS 0"),
        of("eight, and every other fails", &alternating, Holds, 0b1010_1010, "HOLDS 170"),
        of("first of eight", &beside(0, NEVER, AT_1), Holds, 1, "HOLDS 1"),
        of("last of eight", &beside(7, NEVER, AT_1), Holds, 128, "HOLDS 128"),
        of("last of eight, and the others fail", &beside(7, AT_2, AT_1),
            Broken(0, 2, 2, 2), 128, "BROKEN 0 2 2 2 128"),

        of("before and after the commitments",
            &[(r, AT_2), (r, NEVER), (c, NEVER), (c, AT_1), (r, NEVER), (r, AT_2)],
            Broken(3, 1, 1, 1), 0b10_0001, "BROKEN 3 1 1 1 33"),
        of("before and after an assumption", &[(r, AT_1), (a, AT_2), (r, AT_1)],
            Excused(1), 0b101, "EXCUSED 1 5"),
        of("between an assumption and a commitment", &[(c, AT_1), (r, AT_2), (a, NEVER)],
            Broken(0, 1, 1, 1), 0b10, "BROKEN 0 1 1 1 2"),

        of("commitment and advice", &[(c, AT_2), (r, NEVER)], Broken(0, 2, 2, 2), 0, "BROKEN 0 2 2 2 0"),
        of("commitment and advice, swapped", &[(r, AT_2), (c, NEVER)], Holds, 1, "HOLDS 1"),
        of("both fail", &[(c, AT_2), (r, AT_1)], Broken(0, 2, 2, 2), 2, "BROKEN 0 2 2 2 2"),
        of("both fail, swapped", &[(r, AT_2), (c, AT_1)], Broken(1, 1, 1, 1), 1, "BROKEN 1 1 1 1 1"),
        of("assumption and advice", &[(a, AT_2), (r, AT_1)], Excused(0), 2, "EXCUSED 0 2"),
        of("assumption and advice, swapped", &[(r, AT_2), (a, AT_1)], Excused(1), 1, "EXCUSED 1 1"),

        advised("every type, failing", &every_type(r, true), Holds, 0b11_1111, "HOLDS 63"),
        advised("every type, holding", &every_type(r, false), Holds, 0, "HOLDS 0"),
        advised("every type, failing as commitments", &every_type(c, true),
            Broken(0, 0, 0, 0), 0, "BROKEN 0 0 0 0 0"),
    ]
}

/// The one clause of each case of request 4 as advice: it fails exactly where it was broken.
pub fn names_that_stay() -> Vec<Case> {
    let as_advice = |mut case: Case| {
        let broken = case.verdict.finding != Holds;
        let clause = case.sheet.len() - 11;
        case.sheet[clause + 1] = Advice as u8;
        Case { verdict: Verdict { finding: Holds, advice: broken as u8 }, ..case }
    };
    names::cases().into_iter().map(|stays| as_advice(stays.case)).collect()
}
