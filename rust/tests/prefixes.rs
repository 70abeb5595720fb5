//! A broken clause doesn't heal (request 7). Random sheets are laid over every prefix of random
//! traces, the library beside the reference: with each cycle more a clause that failed still fails,
//! and its first broken place is the same or an earlier one. Verdicts, formulas and boards go with it.

mod build;
mod compare;
mod generate;
mod reference;

use build::{hex_file, Role, Sheet, Trace};
use compare::board::Boards;
use compare::Translated;
use generate::{Random, Shape};
use reference::clauses::Finding::*;
use reference::clauses::{Clauses, Cycles, Rule, Verdict};
use std::path::Path;

/// Columns of all names together that are still enumerated: cycles · names.
const COLUMNS: usize = 9;

/// Whether a trace of the one verdict may begin a trace of the other. Broken stays Broken, by the same
/// clause at the same or an earlier place or by an earlier clause, or becomes Excused; Excused stays
/// Excused, by the same or an earlier clause; advice that fails goes on failing.
fn may_become(before: Verdict, after: Verdict) -> bool {
    let finding = match (before.finding, after.finding) {
        (Holds, _) | (Broken(..), Excused(_)) => true,
        (Broken(clause, i, j, k), Broken(new, x, y, z)) => (new, x, y, z) <= (clause, i, j, k),
        (Excused(clause), Excused(new)) => new <= clause,
        (Broken(..), Holds) | (Excused(_), Holds | Broken(..)) => false,
    };
    finding && before.advice & !after.advice == 0
}

/// Whether one cycle more may move a clause's first broken place so. It stays, or it is a new one, the
/// added cycle among its three, and earlier than the old one if the clause was broken before.
fn may_move(before: Option<Cycles>, after: Option<Cycles>, added: usize) -> bool {
    let moves = |(i, j, k): Cycles| {
        [i, j, k].contains(&added) && before.is_none_or(|place| (i, j, k) < place)
    };
    after == before || after.is_some_and(moves)
}

/// A sheet that is laid over prefixes, its formula, and each clause as the only commitment of a sheet
/// of its own.
struct Laid {
    bytes: Vec<u8>,
    translated: Translated,
    alone: Vec<Vec<u8>>,
}

/// What is found of a prefix.
struct Reading {
    verdict: Verdict,
    /// Where each clause is first broken.
    places: Vec<Option<Cycles>>,
    /// Whether some assumption fails.
    excused: bool,
    /// Whether the formula is true, where its columns can be enumerated.
    truth: Option<bool>,
}

impl Laid {
    fn new(sheet: &Sheet) -> Self {
        let alone = |clause: usize| {
            let mut alone = sheet.without(sheet.all_clauses() & !(1 << clause));
            alone.clauses[0][1] = Role::Commitment as u8;
            alone.bytes()
        };
        Laid {
            bytes: sheet.bytes(),
            translated: compare::translate(&sheet.bytes(), 8192).unwrap(),
            alone: (0..sheet.clauses.len()).map(alone).collect(),
        }
    }

    fn trace(&self, prefix: &[u16]) -> Vec<u8> {
        Trace::new(self.translated.source.signals as u8, prefix).bytes()
    }

    fn replay(&self, prefix: &[u16]) -> String {
        compare::kept(&self.bytes, &self.trace(prefix))
    }

    fn read(&self, prefix: &[u16]) -> Reading {
        let (source, trace) = (&self.translated.source, self.trace(prefix));
        let verdict = compare::check(&self.bytes, &trace, 4096).unwrap();
        let clauses = Clauses::new(source, prefix, Rule::Stays);
        let places: Vec<_> = source.clauses.iter().map(|c| clauses.first_broken(c)).collect();
        for (alone, place) in self.alone.iter().zip(&places) {
            let found = compare::as_reference(fasunqir::bytes::check(alone, &trace).unwrap());
            let expected = place.map_or(Holds, |(i, j, k)| Broken(0, i, j, k));
            assert_eq!(found.finding, expected, "{}", compare::kept(alone, &trace));
        }
        let fails = |c: usize| source.clauses[c].role == 0 && places[c].is_some();
        let excused = (0..places.len()).any(fails);
        let enumerated = prefix.len() * source.names <= COLUMNS;
        let truth = enumerated.then(|| self.translated.agrees(prefix));
        let excuses = !excused || truth != Some(false);
        assert!(excuses, "false where an assumption fails\n{}", self.replay(prefix));
        Reading { verdict, places, excused, truth }
    }
}

/// What one cycle more may make of verdicts and formulas.
const TURNS: [&str; 9] = [
    "Holds to Broken",
    "Holds to Excused",
    "Broken to Excused",
    "Broken by an earlier clause",
    "Broken at an earlier place",
    "Excused by an earlier clause",
    "more advice fails",
    "formula true to false",
    "formula false to true",
];

#[derive(Debug, Default)]
struct Counts {
    sheets: usize,
    prefixes: usize,
    /// Clauses of each type that a cycle more breaks.
    breaks: [usize; 6],
    /// Their first places that a cycle more moves.
    moves: [usize; 6],
    /// Of both, those where the clause read without request 4 has another first place or none.
    decided: usize,
    turns: [usize; 9],
    /// Cycles that boards took and refused.
    fed: [usize; 2],
}

impl Counts {
    /// The verdicts of a prefix and of the prefix with one cycle more.
    fn turn(&mut self, before: Verdict, after: Verdict, replay: impl Fn() -> String) {
        assert!(may_become(before, after), "{before:?} becomes {after:?}\n{}", replay());
        let turn = match (before.finding, after.finding) {
            (Holds, Broken(..)) => Some(0),
            (Holds, Excused(_)) => Some(1),
            (Broken(..), Excused(_)) => Some(2),
            (Broken(clause, ..), Broken(new, ..)) if new != clause => Some(3),
            (Broken(..), Broken(..)) if after.finding != before.finding => Some(4),
            (Excused(clause), Excused(new)) if new != clause => Some(5),
            _ => None,
        };
        if let Some(turn) = turn {
            self.turns[turn] += 1;
        }
        self.turns[6] += (after.advice != before.advice) as usize;
    }

    /// What is found of a prefix without its last cycle, and of the prefix. What holds of every such
    /// pair holds of a prefix and any longer one.
    fn step(&mut self, laid: &Laid, prefix: &[u16], before: &Reading, after: &Reading) {
        let replay = || laid.replay(prefix);
        let source = &laid.translated.source;
        for (c, clause) in source.clauses.iter().enumerate() {
            let (old, new) = (before.places[c], after.places[c]);
            let may = may_move(old, new, prefix.len() - 1);
            assert!(may, "clause {c}, broken at {old:?}, is at {new:?}\n{}", replay());
            if new == old {
                continue;
            }
            let counts = if old.is_none() { &mut self.breaks } else { &mut self.moves };
            counts[clause.clause_type as usize - 1] += 1;
            let inside = Clauses::new(source, prefix, Rule::Inside).first_broken(clause);
            self.decided += (inside != new) as usize;
        }
        self.turn(before.verdict, after.verdict, replay);
        if let (Some(was), Some(is)) = (before.truth, after.truth) {
            // False stays false until an assumption fails, and true then stays true.
            assert!(was || is == after.excused, "{was} becomes {is}\n{}", replay());
            assert!(is || !before.excused, "{was} becomes {is}\n{}", replay());
            self.turns[7] += (was && !is) as usize;
            self.turns[8] += (!was && is) as usize;
        }
        self.prefixes += 1;
    }

    /// The sheet on every prefix of a trace.
    fn over(&mut self, random: &mut Random, sheet: &Sheet, trace: Trace) {
        let laid = Laid::new(sheet);
        let trace = trace.cycles;
        let mut before = laid.read(&trace[..1]);
        for length in 2..=trace.len() {
            let after = laid.read(&trace[..length]);
            self.step(&laid, &trace[..length], &before, &after);
            before = after;
        }
        self.sheets += 1;
        self.prefixes += 1;
        if self.sheets.is_multiple_of(3) {
            self.feed(random, &laid, &trace);
        }
    }

    /// A board that is fed the cycles one by one, with refused feeds among them.
    fn feed(&mut self, random: &mut Random, laid: &Laid, trace: &[u16]) {
        let signals = laid.translated.source.signals;
        let mut boards = Boards::open(&laid.bytes).unwrap();
        let mut last: Option<Verdict> = None;
        for &cycle in trace {
            while random.one_in(3) {
                let (cycle, words) = generate::refused_feed(random, signals, cycle);
                assert!(boards.feed(cycle, words).is_err(), "{}", laid.replay(trace));
                self.fed[1] += 1;
            }
            let verdict = boards.feed(cycle, 4096).unwrap();
            let may = last.is_none_or(|last| may_become(last, verdict));
            assert!(may, "{last:?} becomes {verdict:?} on a board\n{}", laid.replay(trace));
            last = Some(verdict);
            self.fed[0] += 1;
        }
    }

    /// Every trace of up to so many cycles that begins with the prefix.
    fn grow(&mut self, laid: &Laid, prefix: &mut Vec<u16>, reading: &Reading, cycles: usize) {
        if prefix.len() == cycles {
            return;
        }
        for word in 0..1 << laid.translated.source.signals {
            prefix.push(word);
            let longer = laid.read(prefix);
            self.step(laid, prefix, reading, &longer);
            self.grow(laid, prefix, &longer, cycles);
            prefix.pop();
        }
    }

    /// Prints the counts and demands so many at least of each, so that no generator falls to one
    /// verdict unnoticed. First places of pref and init never move: their i is 0, and whether they are
    /// broken at j goes by the cycles up to j.
    fn demand(&self, what: &str, least: Counts) {
        let Counts { sheets, prefixes, breaks, moves, decided, turns, fed: [taken, refused] } =
            self;
        let turned = TURNS.iter().zip(turns).map(|(turn, count)| format!("{turn} {count}"));
        compare::report(format!(
            "{what}: {sheets} sheets on {prefixes} prefixes; clauses of type 1 to 6 break {breaks:?} \
             times, their first places move {moves:?} times, request 4 decides {decided} of both; \
             {}; boards took {taken} cycles and refused {refused}",
            turned.collect::<Vec<_>>().join(", ")
        ));
        assert_eq!(moves[..2], [0, 0], "{what}: a first place of pref or init moved");
        let all = |counts: &Counts| {
            let Counts { sheets, prefixes, breaks, moves, decided, turns, fed } = counts;
            [&[*sheets, *prefixes, *decided][..], breaks, moves, turns, fed].concat()
        };
        let enough = all(self).iter().zip(all(&least)).all(|(count, least)| *count >= least);
        assert!(enough, "{what}: {least:?} at least are demanded");
    }
}

/// A sheet drawn in one of five ways, of several clauses in all three roles.
fn mixed(random: &mut Random, case: usize, shape: Shape) -> Sheet {
    let sheet = match case % 5 {
        0 => generate::plain(random, shape),
        1 => generate::drawn(random, shape),
        2 if shape.names > 0 => generate::several(random, shape, generate::shared_clause),
        3 => generate::several(random, shape, generate::marked_clause),
        _ => generate::several(random, shape, generate::timed_clause),
    };
    generate::in_any_role(random, &sheet)
}

#[test]
fn short() {
    let mut random = Random::new(81);
    let mut counts = Counts::default();
    for case in 0..3000 {
        let names = random.below(4);
        let shape = Shape {
            signals: random.between(1, 3),
            names,
            nodes: random.between(3, 20),
            clauses: random.between(1, 5),
            numbers: 5,
        };
        let sheet = mixed(&mut random, case, shape);
        let trace = generate::trace(&mut random, shape.signals, [9, 8, 6, 5][names]);
        counts.over(&mut random, &sheet, trace);
    }
    let least = Counts {
        breaks: [130, 100, 280, 210, 200, 200],
        decided: 45,
        turns: [300, 150, 60, 60, 0, 20, 270, 280, 60],
        fed: [3000, 1500],
        ..Counts::default()
    };
    counts.demand("short prefixes", least);
}

/// Clocks over signals that are high now and then: first places move.
#[test]
fn timed() {
    let mut random = Random::new(84);
    let mut counts = Counts::default();
    for _ in 0..3000 {
        let names = random.pick(&[0, 0, 0, 1, 1, 2, 3]);
        let shape = Shape {
            signals: random.between(3, 4),
            names,
            nodes: 0,
            clauses: random.between(1, 5),
            numbers: [5, 4, 3, 2][names],
        };
        let sheet = generate::several(&mut random, shape, generate::timed_clause);
        let sheet = generate::in_any_role(&mut random, &sheet);
        let trace = generate::events(&mut random, shape.signals, [16, 11, 8, 6][names]);
        counts.over(&mut random, &sheet, trace);
    }
    let least = Counts {
        breaks: [380, 80, 600, 470, 300, 400],
        moves: [0, 0, 60, 25, 20, 20],
        decided: 8,
        turns: [650, 340, 120, 90, 30, 30, 500, 600, 100],
        fed: [6000, 3000],
        ..Counts::default()
    };
    counts.demand("timed prefixes", least);
}

/// Up to 64 cycles without names, fewer with one.
#[test]
fn long() {
    let mut random = Random::new(82);
    let mut counts = Counts::default();
    for case in 0..50 {
        let names = case / 5 % 2;
        let shape = Shape {
            signals: random.between(2, 5),
            names,
            nodes: random.between(6, [14, 10][names]),
            clauses: random.between(1, [4, 2][names]),
            numbers: [20, 8][names],
        };
        let sheet = mixed(&mut random, case, shape);
        let trace = generate::events(&mut random, shape.signals, [64, 20][names]);
        counts.over(&mut random, &sheet, trace);
    }
    let least = Counts {
        breaks: [1, 1, 8, 2, 2, 3],
        turns: [7, 2, 0, 1, 0, 0, 5, 6, 0],
        fed: [300, 150],
        ..Counts::default()
    };
    counts.demand("long prefixes", least);
}

/// Each sheet on every trace of up to six cycles of one signal, or four of two, so that each prefix has
/// every way to go on.
#[test]
fn every_short_trace() {
    let mut random = Random::new(83);
    let mut counts = Counts::default();
    for case in 0..160 {
        let (signals, cycles) = random.pick(&[(1, 6), (2, 4)]);
        let names = random.below(4);
        let shape = Shape {
            signals,
            names,
            nodes: random.between(3, 16),
            clauses: random.between(1, 4),
            numbers: 4,
        };
        let laid = Laid::new(&mixed(&mut random, case, shape));
        for word in 0..1 << signals {
            let first = laid.read(&[word]);
            counts.grow(&laid, &mut vec![word], &first, cycles);
            counts.prefixes += 1;
        }
        counts.sheets += 1;
    }
    let least = Counts {
        breaks: [170, 110, 650, 550, 440, 200],
        decided: 35,
        turns: [650, 350, 65, 70, 0, 75, 350, 600, 60],
        ..Counts::default()
    };
    counts.demand("prefixes of every short trace", least);
}

/// Each of these findings may become itself and those after it, and none before it.
#[test]
fn relation() {
    let findings = [
        Holds,
        Broken(2, 1, 3, 3),
        Broken(2, 1, 2, 6),
        Broken(2, 1, 2, 5),
        Broken(2, 0, 7, 7),
        Broken(1, 4, 4, 4),
        Excused(3),
        Excused(0),
    ];
    for (b, before) in findings.into_iter().enumerate() {
        for (a, after) in findings.into_iter().enumerate() {
            for (old, new, stays) in [(0, 0, true), (2, 2, true), (2, 3, true), (2, 1, false)] {
                let before = Verdict { finding: before, advice: old };
                let after = Verdict { finding: after, advice: new };
                assert_eq!(may_become(before, after), b <= a && stays, "{before:?}, {after:?}");
            }
        }
    }
}

/// The cycles of minutes as they are typed.
fn typed(minutes: &str) -> Vec<u16> {
    let signal = |word: &str| 1 << word[1..].parse::<u16>().unwrap();
    let minute = |line: &str| line.split_whitespace().filter(|&w| w != "-").map(signal).sum();
    minutes.lines().map(minute).collect()
}

/// An example whose minutes are typed one by one. On each prefix the library's verdict is the one that
/// `fasunqir board` is to write, and the example's traces are the minutes up to those given.
fn example(name: &str, ends: &[usize]) -> Counts {
    let root = Path::new(env!("CARGO_MANIFEST_DIR")).parent().unwrap();
    let file = |path: String| std::fs::read_to_string(root.join(path)).unwrap();
    let text = file(format!("examples/{name}/sheet.txt"));
    let sheet = compare::read_text(text.as_bytes(), 8192).unwrap();
    let minutes = typed(&file(format!("examples/{name}/minutes.txt")));
    let mut counts = Counts::default();
    let (mut last, mut written) = (None, String::new());
    for minute in 0..minutes.len() {
        let trace = Trace::new(sheet[4], &minutes[..=minute]).bytes();
        if ends.contains(&minute) {
            let stored = file(format!("examples/{name}/to-{minute}.hex"));
            assert_eq!(hex_file(&stored), trace, "{name} to {minute}");
        }
        let verdict = compare::check(&sheet, &trace, 4096).unwrap();
        if let Some(last) = last.replace(verdict) {
            counts.turn(last, verdict, || compare::kept(&sheet, &trace));
        }
        written += &format!("{minute:<3}{}\n", fasunqir::bytes::check(&sheet, &trace).unwrap());
    }
    let stored = file(format!("runs/board/{name}.out"));
    assert_eq!(stored.split("status").next(), Some(&written[..]), "{name}");
    counts
}

#[test]
fn examples() {
    // Broken, then at an earlier place, then by an earlier clause.
    assert_eq!(example("clocks", &[4, 5, 7, 9]).turns, [1, 0, 0, 1, 1, 0, 0, 0, 0]);
    // Broken, then Excused.
    assert_eq!(example("withdrawn", &[3, 4, 6]).turns, [1, 0, 1, 0, 0, 0, 0, 0, 0]);
}
