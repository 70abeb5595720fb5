//! Document 01's examples, its program input and its traps.

use super::{Case, OnInterval};
use crate::build::Role::*;
use crate::build::{from_hex, Compare, Part, Sheet, Symbol, Trace};
use crate::reference::clauses::Finding::*;
use crate::reference::clauses::Verdict;

/// A sheet of one formula, with a clause because a sheet has one.
fn sheet_of(signals: u8, formula: impl Fn(&mut Sheet) -> crate::build::Node) -> (Vec<u8>, usize) {
    let mut sheet = Sheet::new(signals, 0);
    let root = formula(&mut sheet);
    sheet.anti(Commitment, Part(root, 0));
    (sheet.bytes(), root.0 as usize)
}

/// A sheet and its formula, the rows of a trace, the interval and whether the formula holds there.
type Row<'a> = (&'static str, &'a (Vec<u8>, usize), &'a [&'a str], usize, usize, bool);

/// E1–E10.
pub fn proved() -> Vec<OnInterval> {
    let p_stretch = sheet_of(1, |s| {
        let p = s.signal(0);
        s.stretch(p)
    });
    let p_whole = sheet_of(1, |s| {
        let p = s.signal(0);
        s.whole(p)
    });
    let p_then_r = sheet_of(2, |s| {
        let (p, r) = (s.signal(0), s.signal(1));
        let not_p = s.not(p);
        let only_r = s.and(not_p, r);
        let (first, second) = (s.stretch(p), s.whole(only_r));
        s.chop(first, second)
    });
    let p_unit = sheet_of(1, |s| {
        let p = s.signal(0);
        s.unit(p)
    });
    let one_counted = sheet_of(1, |s| {
        let p = s.signal(0);
        s.scount(p, Compare::Equal, 1)
    });
    let one_lasting = sheet_of(1, |s| {
        let p = s.signal(0);
        s.sdur(p, Compare::Equal, 1)
    });
    let units = sheet_of(1, |s| {
        let p = s.signal(0);
        let unit = s.unit(p);
        s.star(unit)
    });
    let low_then_high = sheet_of(1, |s| {
        let (low, high) = (s.symbol(Symbol::Low, 0), s.symbol(Symbol::HighRun, 0));
        s.chop(low, high)
    });

    let seven = &["11111110"][..];
    let p_and_r = &["11111111000", "00001111111"][..];
    let out_at_3 = &["11101"][..];
    let rows: [Row; 10] = [
        ("E1: [p] on [0,7]", &p_stretch, seven, 0, 7, true),
        ("E2: [[p]] on [0,7]", &p_whole, seven, 0, 7, false),
        ("E3: [p] chop [[not p and r]] on [0,10]", &p_then_r, p_and_r, 0, 10, true),
        ("E4: the same on [0,7]", &p_then_r, p_and_r, 0, 7, false),
        ("E5: [p] on [3,3]", &p_stretch, out_at_3, 3, 3, true),
        ("E6: {{p}} on [3,3]", &p_unit, out_at_3, 3, 3, false),
        ("E7: scount p = 1 on the only cycle", &one_counted, &["1"], 0, 0, true),
        ("E8: sdur p = 1 on the only cycle", &one_lasting, &["1"], 0, 0, false),
        ("E9: {{p}} starred on [2,2]", &units, &["0000"], 2, 2, true),
        ("E10: low chop high-stretch on [0,1]", &low_then_high, &["00"], 0, 1, true),
    ];
    rows.into_iter()
        .map(|(what, (sheet, node), trace, b, e, holds)| OnInterval {
            what,
            sheet: sheet.clone(),
            trace: Trace::drawn(trace).bytes(),
            node: *node,
            cycles: [0; 3],
            b,
            e,
            holds,
        })
        .collect()
}

/// The program's input.
pub fn program() -> Case {
    Case {
        what: "program input",
        sheet: from_hex(
            "00 1E 01 01 01 00 00 02 01 03 00 00 00 00 00 10 00 00 00 00 00 \
             03 01 00 01 00 00 00 00 00 00 00",
        ),
        trace: from_hex("00 08 01 01 00 00 00 00 00 01"),
        verdict: Verdict { finding: Broken(0, 2, 2, 2), advice: 0 },
    }
}

/// Each trap of the published text, where the wrong reading gives another verdict.
pub fn traps() -> Vec<Case> {
    let any_two = Trace::drawn(&["00"]);

    // ⟨u⟩ then slen = 2 then ⟨v⟩ holds with the gap started late; the mark and the gap don't.
    let mut late = Sheet::new(1, 2);
    let (u, v) = (late.name(0), late.name(1));
    let (at_u, two, at_v) = (late.point(u), late.slen(Compare::Equal, 2), late.point(v));
    let points = late.row(&[at_u, two, at_v]);
    let gap = late.gap(0, 1, 2, 2);
    late.implies(Commitment, Part(points, 3), Part(gap, 3));
    let mut sharp = Sheet::new(1, 2);
    let (mark_u, two, mark_v) = (sharp.mark(0), sharp.slen(Compare::Equal, 2), sharp.mark(1));
    let row = sharp.row(&[mark_u, two, mark_v]);
    let gap = sharp.gap(0, 1, 2, 2);
    sharp.implies(Commitment, Part(row, 3), Part(gap, 3));
    let four = Trace::drawn(&["0000"]);

    // pref(⟨u⟩): for every j some placement, not one placement for every j.
    let mut pref = Sheet::new(1, 1);
    let u = pref.name(0);
    let at_u = pref.point(u);
    pref.pref(Commitment, Part(at_u, 1));
    // The mark at the last cycle must move with j.
    let mut last = Sheet::new(1, 1);
    let (before, mark) = (last.anywhere(), last.mark(0));
    let ends_in_u = last.chop(before, mark);
    last.pref(Commitment, Part(ends_in_u, 1));

    // A shared name has one cycle: u in both halves of a chop with a cycle between.
    let mut shared = Sheet::new(1, 1);
    let (mark, one) = (shared.mark(0), shared.slen(Compare::Equal, 1));
    let twice = shared.row(&[mark, one, mark]);
    shared.anti(Commitment, Part(twice, 1));
    // The same across parts: D1 ends where u is marked, D3 starts there or later.
    let mut across = Sheet::new(1, 1);
    let (mark, some) = (across.mark(0), across.slen(Compare::More, 0));
    let first = across.chop(some, mark);
    let third = across.chop(some, mark);
    let never = across.slen(Compare::Less, 0);
    across.follows(Commitment, Part(first, 1), Part(never, 0), Part(third, 1));

    // A join may be at e: low then an empty high-stretch.
    let mut join = Sheet::new(1, 0);
    let (low, high) = (join.symbol(Symbol::Low, 0), join.symbol(Symbol::HighRun, 0));
    let row = join.chop(low, high);
    join.anti(Commitment, Part(row, 0));

    vec![
        Case::new("a gap after ⟨u⟩ may start late", &late, &four, Broken(0, 0, 3, 3)),
        Case::new("a gap after a mark starts there", &sharp, &four, Holds),
        Case::new("pref(⟨u⟩) on two cycles", &pref, &any_two, Holds),
        Case::new("pref of a mark at the end", &last, &four, Holds),
        Case::new("two marks in one column", &shared, &four, Holds),
        Case::new("two marks in one column, across parts", &across, &four, Holds),
        Case::new("a join at the end of the interval", &join, &any_two, Broken(0, 0, 1, 1)),
    ]
}

/// Corners of clauses and verdicts that the text names.
pub fn corners() -> Vec<Case> {
    let mut cases = vec![];
    let rising = Trace::drawn(&["0011", "0101"]);

    // No commitments: Broken never comes.
    let mut idle = Sheet::new(2, 0);
    let p = idle.signal(0);
    let at_p = idle.point(p);
    idle.pref(Assumption, Part(at_p, 0));
    cases.push(Case::new("only a failing assumption", &idle, &rising, Excused(0)));
    let mut content = Sheet::new(2, 0);
    let any = content.anywhere();
    content.pref(Assumption, Part(any, 0));
    cases.push(Case::new("only a holding assumption", &content, &rising, Holds));

    // An assumption after a failing commitment still excuses.
    let mut mixed = Sheet::new(2, 0);
    let p = mixed.signal(0);
    let at_p = mixed.point(p);
    let any = mixed.anywhere();
    mixed.anti(Commitment, Part(any, 0));
    mixed.pref(Assumption, Part(any, 0));
    mixed.pref(Assumption, Part(at_p, 0));
    cases.push(Case::new("the first failing assumption", &mixed, &rising, Excused(2)));
    let mut second = Sheet::new(2, 0);
    let p = second.signal(0);
    let at_p = second.point(p);
    let any = second.anywhere();
    second.pref(Commitment, Part(any, 0));
    second.anti(Commitment, Part(at_p, 0));
    second.anti(Commitment, Part(any, 0));
    cases.push(Case::new("the first failing commitment", &second, &rising, Broken(1, 2, 2, 2)));

    // init: every j counts, not only the first.
    let mut init = Sheet::new(2, 0);
    let (p, q) = (init.signal(0), init.signal(1));
    let (never, any) = (init.slen(Compare::Less, 0), init.anywhere());
    let (mark_p, mark_q) = (init.unit(p), init.unit(q));
    let (p_seen, q_seen) = (init.chop(any, mark_p), init.chop(any, mark_q));
    init.init(Assumption, Part(any, 0), Part(never, 0));
    init.init(Commitment, Part(p_seen, 0), Part(q_seen, 0));
    cases.push(Case::new("init breaks where q came before p", &init, &rising, Broken(1, 0, 2, 2)));
    let both = Trace::drawn(&["0101", "0010"]);
    cases.push(Case::new("init holds where p came first", &init, &both, Holds));

    let three = Trace::drawn(&["000"]);

    // triggers: k may be before j.
    let mut early = Sheet::new(1, 0);
    let (two, one, never) = (
        early.slen(Compare::Equal, 2),
        early.slen(Compare::Equal, 1),
        early.slen(Compare::Less, 0),
    );
    early.triggers(Commitment, Part(two, 0), Part(never, 0), Part(one, 0));
    cases.push(Case::new("triggers with k before j", &early, &three, Broken(0, 0, 2, 1)));
    let mut after = early.clone();
    after.clauses[0][0] = 5;
    cases.push(Case::new("the same as follows", &after, &three, Holds));

    // Ξ: marks stay where they are, so a shorter interval without the mark still counts.
    let mut shortest = Sheet::new(1, 1);
    let (any, never) = (shortest.anywhere(), shortest.slen(Compare::Less, 0));
    let point = shortest.slen(Compare::Equal, 0);
    shortest.follows(Commitment, Part(point, 0), Part(never, 0), Part(any, 1));
    cases.push(Case::new("Ξ of any interval is a point", &shortest, &three, Broken(0, 0, 0, 0)));
    let mut never_first = Sheet::new(1, 1);
    let (u, never) = (never_first.name(0), never_first.slen(Compare::Less, 0));
    let without = never_first.scount(u, Compare::Equal, 0);
    let with = never_first.scount(u, Compare::Equal, 1);
    let either = never_first.either(without, with);
    let point = never_first.slen(Compare::Equal, 0);
    let later = never_first.slen(Compare::More, 0);
    let long = never_first.both(either, later);
    never_first.follows(Commitment, Part(point, 0), Part(never, 0), Part(long, 1));
    cases.push(Case::new("Ξ beside a mark further on", &never_first, &three, Broken(0, 0, 0, 1)));

    // The last cycle of the longest trace.
    let mut end = Sheet::new(1, 0);
    let p = end.signal(0);
    let at_p = end.point(p);
    let point = end.slen(Compare::Equal, 0);
    let here = end.both(at_p, point);
    let never = end.slen(Compare::Less, 0);
    end.follows(Commitment, Part(here, 0), Part(never, 0), Part(point, 0));
    let mut cycles = vec![0; 64];
    cycles[63] = 1;
    cases.push(Case::new("cycle 63", &end, &Trace::new(1, &cycles), Broken(0, 63, 63, 63)));

    // A star of a formula that holds on points adds nothing to the star.
    let mut star = Sheet::new(1, 0);
    let point = star.slen(Compare::Equal, 0);
    let points = star.star(point);
    let longer = star.slen(Compare::More, 0);
    let long = star.both(points, longer);
    star.anti(Commitment, Part(long, 0));
    cases.push(Case::new("a star of points", &star, &three, Holds));
    cases
}
