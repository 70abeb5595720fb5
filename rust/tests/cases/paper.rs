//! The specifications of document 004: lags, tracks, sep and ubound of section 4, the mine pump and
//! the arbiter of appendix E, each with a trace that holds and one that breaks.

use super::Case;
use crate::build::Role::*;
use crate::build::{Compare, Node, Part, Role, Sheet, Symbol::*, Trace};
use crate::reference::clauses::Finding::*;

const NO_LIMIT: u16 = u16::MAX;

/// Symbols on signal k, with marks between them.
enum Drawn {
    S(crate::build::Symbol),
    M(u16),
}
use Drawn::{M, S};

fn drawn(sheet: &mut Sheet, k: u16, symbols: &[Drawn]) -> Node {
    let nodes: Vec<Node> = symbols
        .iter()
        .map(|drawn| match drawn {
            S(symbol) => sheet.symbol(*symbol, k),
            M(u) => sheet.mark(*u),
        })
        .collect();
    sheet.row(&nodes)
}

/// lags(p, q, n): p: ⟨u⟩1|⟨v⟩1| with v at u + n, implies q: 2|⟨v⟩1|.
fn lags(sheet: &mut Sheet, role: Role, p: u16, q: u16, n: u16) {
    let p_row = drawn(sheet, p, &[M(0), S(HighRun), M(1), S(HighRun)]);
    let gap = sheet.gap(0, 1, n, n);
    let d1 = sheet.both(p_row, gap);
    let d2 = drawn(sheet, q, &[S(EitherRun), M(1), S(HighRun)]);
    sheet.implies(role, Part(d1, 0b11), Part(d2, 0b10));
}

/// tracks(p, q, n), as section 4 words it: p rises at u and stays up to v, at most n cycles on;
/// then q is up from u to v.
fn tracks(sheet: &mut Sheet, role: Role, p: u16, q: u16, n: u16) {
    let p_row = drawn(sheet, p, &[S(Low), M(0), S(HighRun), M(1), S(EitherRun)]);
    let gap = sheet.gap(0, 1, 0, n);
    let d1 = sheet.both(p_row, gap);
    let d2 = drawn(sheet, q, &[S(Either), M(0), S(HighRun), M(1), S(EitherRun)]);
    sheet.implies(role, Part(d1, 0b11), Part(d2, 0b11));
}

/// tracks(p, q, n), as appendix C prints it: q is down from every v on that is n cycles or more
/// after u.
fn tracks_as_printed(sheet: &mut Sheet, role: Role, p: u16, q: u16, n: u16) {
    let p_row = drawn(sheet, p, &[S(Low), M(0), S(HighRun), M(1), S(HighRun)]);
    let gap = sheet.gap(0, 1, n, NO_LIMIT);
    let d1 = sheet.both(p_row, gap);
    let d2 = drawn(sheet, q, &[S(Either), M(0), S(HighRun), M(1), S(LowRun)]);
    sheet.implies(role, Part(d1, 0b11), Part(d2, 0b11));
}

/// sep(p, n): from a falling edge of p at u to the next rising edge at v there are n cycles or
/// more. A run may be empty, so each edge has a single symbol on both sides.
fn sep(sheet: &mut Sheet, role: Role, p: u16, n: u16) {
    let d1 = drawn(sheet, p, &[S(High), M(0), S(Low), S(LowRun), M(1), S(High)]);
    let free = drawn(sheet, p, &[S(Either), M(0), S(EitherRun), M(1), S(EitherRun)]);
    let gap = sheet.gap(0, 1, n, NO_LIMIT);
    let d2 = sheet.both(free, gap);
    sheet.implies(role, Part(d1, 0b11), Part(d2, 0b11));
}

/// ubound(p, n): p: ⟨c⟩1|⟨d⟩1 implies that d is under n cycles after c.
fn ubound(sheet: &mut Sheet, role: Role, p: u16, n: u16) {
    let d1 = drawn(sheet, p, &[M(0), S(HighRun), M(1), S(High)]);
    let free = drawn(sheet, p, &[M(0), S(EitherRun), M(1), S(Either)]);
    let gap = sheet.gap(0, 1, 0, n - 1);
    let d2 = sheet.both(free, gap);
    sheet.implies(role, Part(d1, 0b11), Part(d2, 0b11));
}

fn generic() -> Vec<Case> {
    let with = |signals: u8, write: &dyn Fn(&mut Sheet)| {
        let mut sheet = Sheet::new(signals, 2);
        write(&mut sheet);
        sheet
    };
    let lag = with(2, &|s| lags(s, Commitment, 0, 1, 2));
    let track = with(2, &|s| tracks(s, Commitment, 0, 1, 3));
    let printed = with(2, &|s| tracks_as_printed(s, Commitment, 0, 1, 2));
    let separate = with(1, &|s| sep(s, Commitment, 0, 3));
    let bounded = with(1, &|s| ubound(s, Commitment, 0, 3));
    let t = Trace::drawn;
    vec![
        Case::new("lags", &lag, &t(&["01111100", "00011100"]), Holds),
        Case::new("lags, q falls early", &lag, &t(&["01111100", "00010100"]), Broken(0, 1, 5, 5)),
        Case::new("tracks", &track, &t(&["0011110", "0011100"]), Holds),
        Case::new("tracks, a hole in q", &track, &t(&["0011110", "0010100"]), Broken(0, 1, 4, 4)),
        Case::new("tracks as printed", &printed, &t(&["0011000", "0011000"]), Holds),
        Case::new(
            "tracks as printed, p and q up for longer",
            &printed,
            &t(&["0011100", "0011100"]),
            Broken(0, 1, 5, 5),
        ),
        Case::new("sep", &separate, &t(&["1100011"]), Holds),
        Case::new("sep, too near", &separate, &t(&["1100110"]), Broken(0, 1, 5, 5)),
        Case::new("ubound", &bounded, &t(&["0111011"]), Holds),
        Case::new("ubound, up for four", &bounded, &t(&["0111101"]), Broken(0, 1, 5, 5)),
    ]
}

/// Signals of the mine pump.
const HIGH_WATER: u16 = 0;
const METHANE: u16 = 1;
const DANGEROUS_WATER: u16 = 2;
const ALARM: u16 = 3;
const PUMP: u16 = 4;

/// Sensor reliability, initial condition and methane bound 2; alarm delays 1 and the safety
/// condition. A sheet has room for eight clauses and 64 nodes, so three assumptions are left out.
fn mine_pump() -> Sheet {
    let mut sheet = Sheet::new(5, 2);
    let s = &mut sheet;
    let (water, methane) = (s.signal(HIGH_WATER), s.signal(METHANE));
    let (danger, pump) = (s.signal(DANGEROUS_WATER), s.signal(PUMP));
    let reliable = s.only_with(danger, water);
    let always_reliable = s.whole(reliable);
    s.pref(Assumption, Part(always_reliable, 0));

    let (no_water, no_methane) = (s.not(water), s.not(methane));
    let (starts_dry, starts_clean) = (s.point(no_water), s.point(no_methane));
    let starts = s.both(starts_dry, starts_clean);
    let first = s.slen(Compare::Equal, 0);
    s.init(Assumption, Part(starts, 0), Part(first, 0));

    ubound(s, Assumption, METHANE, 2);
    lags(s, Commitment, HIGH_WATER, ALARM, 1);

    let (no_danger, no_pump) = (s.not(danger), s.not(pump));
    let off_in_methane = s.only_with(methane, no_pump);
    let safe = s.and(no_danger, off_in_methane);
    let always_safe = s.whole(safe);
    s.pref(Commitment, Part(always_safe, 0));
    sheet
}

fn mine() -> Vec<Case> {
    let sheet = mine_pump();
    let calm = ["0011110", "0110000", "0000000", "0001110", "0000110"];
    let with = |signal: u16, row: &'static str| {
        let mut rows = calm;
        rows[signal as usize] = row;
        Trace::drawn(&rows)
    };
    vec![
        Case::new("mine pump", &sheet, &Trace::drawn(&calm), Holds),
        Case::new("mine pump, late alarm", &sheet, &with(ALARM, "0000110"), Broken(3, 2, 4, 4)),
        Case::new("mine pump, on in methane", &sheet, &with(PUMP, "0010110"), Broken(4, 0, 2, 2)),
        Case::new(
            "mine pump, danger",
            &sheet,
            &with(DANGEROUS_WATER, "0001000"),
            Broken(4, 0, 3, 3),
        ),
        Case::new("mine pump, sensor", &sheet, &with(DANGEROUS_WATER, "0100000"), Excused(0)),
        Case::new("mine pump, wet at first", &sheet, &with(HIGH_WATER, "1011110"), Excused(1)),
        Case::new("mine pump, long leak", &sheet, &with(METHANE, "0111000"), Excused(2)),
    ]
}

/// Clauses 0 exclusion, 1 no spurious acknowledgement, 2–4 response time 3 of each cell, 5 dead
/// time 2. Signals 0–2 are the requests, 3–5 the acknowledgements.
fn arbiter() -> Sheet {
    let mut sheet = Sheet::new(6, 0);
    let s = &mut sheet;
    let requests = [0, 1, 2].map(|k| s.signal(k));
    let acknowledged = [3, 4, 5].map(|k| s.signal(k));
    let pairs = [(0, 1), (0, 2), (1, 2)].map(|(x, y)| {
        let both = s.and(acknowledged[x], acknowledged[y]);
        s.not(both)
    });
    let two_pairs = s.and(pairs[0], pairs[1]);
    let exclusive = s.and(two_pairs, pairs[2]);
    let exclusion = s.whole(exclusive);
    s.pref(Commitment, Part(exclusion, 0));

    let asked = [0, 1, 2].map(|x| s.only_with(acknowledged[x], requests[x]));
    let two_asked = s.and(asked[0], asked[1]);
    let all_asked = s.and(two_asked, asked[2]);
    let no_spurious = s.whole(all_asked);
    s.pref(Commitment, Part(no_spurious, 0));

    let any = s.anywhere();
    let waits = s.slen(Compare::Equal, 3);
    for x in 0..3 {
        let requested = s.whole(requests[x]);
        let long = s.both(requested, waits);
        let point = s.point(acknowledged[x]);
        let heard = s.row(&[any, point, any]);
        s.implies(Commitment, Part(long, 0), Part(heard, 0));
    }

    let two_requests = s.or(requests[0], requests[1]);
    let some_request = s.or(two_requests, requests[2]);
    let two_acknowledged = s.or(acknowledged[0], acknowledged[1]);
    let some_acknowledged = s.or(two_acknowledged, acknowledged[2]);
    let none_acknowledged = s.not(some_acknowledged);
    let lost = s.and(some_request, none_acknowledged);
    let all_lost = s.stretch(lost);
    let longer = s.slen(Compare::More, 2);
    let dead = s.both(all_lost, longer);
    s.anti(Commitment, Part(dead, 0));
    sheet
}

fn arbiters() -> Vec<Case> {
    let sheet = arbiter();
    let fair = ["11101100", "01111000", "00011110", "10000100", "00100000", "00001010"];
    let with = |changes: &[(usize, &'static str)]| {
        let mut rows = fair;
        for &(signal, row) in changes {
            rows[signal] = row;
        }
        Trace::drawn(&rows)
    };
    vec![
        Case::new("arbiter", &sheet, &with(&[]), Holds),
        Case::new("two at once", &sheet, &with(&[(3, "10100100")]), Broken(0, 0, 2, 2)),
        Case::new(
            "unasked",
            &sheet,
            &with(&[(4, "00100100"), (3, "10000000")]),
            Broken(1, 0, 5, 5),
        ),
        Case::new(
            "too slow",
            &sheet,
            &with(&[(5, "00000010"), (2, "00111110")]),
            Broken(4, 2, 5, 5),
        ),
        Case::new(
            "lost cycles",
            &sheet,
            &with(&[
                (0, "11100100"),
                (3, "10000100"),
                (4, "00000000"),
                (1, "01101000"),
                (5, "00001010"),
            ]),
            Broken(5, 1, 4, 4),
        ),
    ]
}

pub fn cases() -> Vec<Case> {
    let mut cases = generic();
    cases.extend(mine());
    cases.extend(arbiters());
    cases
}
