//! What `explain` claims of each clause, held against the second implementation: the library's
//! explanation on many random sheets, and the command's words on some of them.

mod build;
mod command;
mod compare;
mod generate;
mod reference;

use build::{Sheet, Trace};
use command::{run, Scratch};
use fasunqir::{explain, Outcome, Place};
use generate::{Draw, Random, Shape};
use reference::clauses::{Clauses, Cycles, Rule};
use reference::stored::{self, Node};

/// How often each outcome came.
#[derive(Default)]
struct Tally {
    holds: usize,
    never_asked: usize,
    fails: usize,
    with_names: usize,
}

/// The first place where a clause is asked: where it would be broken if its answer were never given.
fn first_asked(sheet: &stored::Sheet, number: usize, trace: &[u16]) -> Option<Cycles> {
    let mut sheet = sheet.clone();
    sheet.nodes.push(Node { op: 24, q: 0, a: 0, b: 0 });
    let never = sheet.nodes.len() - 1;
    let clause = &mut sheet.clauses[number];
    let answer = if clause.clause_type == 2 { 0 } else { 1 };
    clause.roots[answer] = never;
    clause.masks[answer] = 0;
    let clause = *clause;
    Clauses::new(&sheet, trace, Rule::Stays).first_broken(&clause)
}

fn cycles_of(place: Place) -> Cycles {
    (place.i, place.j, place.k)
}

/// Each claim of the library's explanation is what the reference finds.
fn explained(sheet: &[u8], trace: &Trace, tally: &mut Tally) {
    let source = stored::sheet(sheet).unwrap();
    let clauses = Clauses::new(&source, &trace.cycles, Rule::Stays);
    let typed = fasunqir::Sheet::try_from(sheet).unwrap();
    let found = explain(&typed, &typed.trace(&trace.bytes()).unwrap()).unwrap();
    let replay = || compare::kept(sheet, &trace.bytes());
    let verdict = reference::clauses::verdict(&source, &trace.cycles);
    assert_eq!(compare::as_reference(found.verdict), verdict, "{}", replay());
    assert_eq!(found.clauses.len(), source.clauses.len());
    for (number, (outcome, clause)) in found.clauses.iter().zip(&source.clauses).enumerate() {
        let broken = clauses.first_broken(clause);
        let has_premise = !matches!(clause.clause_type, 1 | 3);
        match *outcome {
            Outcome::Fails { place, names } => {
                assert_eq!(Some(cycles_of(place)), broken, "clause {number}\n{}", replay());
                assert_eq!(place.clause, number);
                assert!(
                    clauses.breaks_with(clause, cycles_of(place), names),
                    "{names:?}\n{}",
                    replay()
                );
                tally.fails += 1;
                tally.with_names += names.iter().any(Option::is_some) as usize;
            }
            Outcome::NeverAsked => {
                assert!(has_premise && broken.is_none(), "clause {number}\n{}", replay());
                assert_eq!(first_asked(&source, number, &trace.cycles), None, "{}", replay());
                tally.never_asked += 1;
            }
            Outcome::Holds { asked } => {
                assert_eq!(broken, None, "clause {number}\n{}", replay());
                let first = first_asked_if(has_premise, &source, number, &trace.cycles);
                assert_eq!(asked.map(cycles_of), first, "clause {number}\n{}", replay());
                tally.holds += 1;
            }
            other => panic!("no outcome of the papers: {other:?}"),
        }
    }
}

fn first_asked_if(
    asked: bool,
    sheet: &stored::Sheet,
    number: usize,
    trace: &[u16],
) -> Option<Cycles> {
    asked.then(|| first_asked(sheet, number, trace)).flatten()
}

fn drawn(random: &mut Random, draw: Draw, clauses: usize) -> (Sheet, Trace) {
    let names = random.below(4);
    let signals = random.between(1, 3);
    let shape = Shape { signals, names, nodes: random.between(2, 20), clauses, numbers: 4 };
    let cycles = random.between(1, [10, 8, 6, 5][names]);
    let sheet = draw(random, shape);
    let trace = generate::trace(random, sheet.signals.into(), cycles);
    (generate::in_any_role(random, &sheet), trace)
}

#[test]
fn claims_are_the_references() {
    let mut random = Random::new(310);
    let mut tally = Tally::default();
    let draws: [Draw; 4] = [generate::plain, generate::drawn, generate::marked, generate::shared];
    for round in 0..6000 {
        let draw = draws[round % draws.len()];
        let clauses = random.between(1, 4);
        // marks and shared names need a name
        let (sheet, trace) = loop {
            let (sheet, trace) = drawn_if(&mut random, draw, clauses, round % draws.len() < 2);
            if stored::sheet(&sheet.bytes()).is_ok() {
                break (sheet, trace);
            }
        };
        explained(&sheet.bytes(), &trace, &mut tally);
    }
    compare::report(format!(
        "explain: {} clauses hold, {} were never asked, {} fail, {} of them with names",
        tally.holds, tally.never_asked, tally.fails, tally.with_names
    ));
    assert!(tally.holds >= 1500 && tally.never_asked >= 500 && tally.fails >= 3000);
    assert!(tally.with_names >= 1000);
}

/// As [`drawn`], with a name at least where the way of drawing needs one.
fn drawn_if(random: &mut Random, draw: Draw, clauses: usize, any: bool) -> (Sheet, Trace) {
    if any {
        return drawn(random, draw, clauses);
    }
    let names = random.between(1, 3);
    let shape = Shape { signals: random.between(1, 2), names, nodes: 0, clauses: 1, numbers: 4 };
    let sheet = draw(random, shape);
    let cycles = random.between(2, [0, 8, 6, 5][names]);
    let trace = generate::trace(random, sheet.signals.into(), cycles);
    (generate::in_any_role(random, &sheet), trace)
}

/// A sheet whose nodes are all needed by a clause's premise has none left for an answer that is never
/// given: nothing is claimed of where it was asked.
#[test]
fn full_sheets_say_less() {
    let mut sheet = Sheet::new(1, 0);
    let p = sheet.signal(0);
    let mut premise = sheet.point(p);
    let answer = premise;
    while sheet.nodes.len() < 64 {
        premise = sheet.both(premise, answer);
    }
    sheet.implies(build::Role::Commitment, build::Part(premise, 0), build::Part(answer, 0));
    let typed = fasunqir::Sheet::try_from(sheet.bytes()).unwrap();
    let trace = "-\ns0\n".parse().unwrap();
    let found = explain(&typed, &trace).unwrap();
    assert_eq!(found.clauses, [Outcome::Holds { asked: None }]);
}

/// The numbers in a sentence, in their order.
fn numbers(sentence: &str) -> Vec<usize> {
    sentence
        .split(|c: char| !c.is_ascii_digit())
        .filter(|word| !word.is_empty())
        .map(|word| word.parse().unwrap())
        .collect()
}

/// A stretch as it is told: "in minute 2", or "from minute 2 to minute 7".
fn stretch(words: &str) -> (usize, usize) {
    match numbers(words)[..] {
        [only] => (only, only),
        [first, last] => (first, last),
        _ => panic!("no stretch: {words}"),
    }
}

/// The place and the names that the words about a failing clause tell, by its type.
fn told(clause_type: u8, words: &str) -> (Cycles, [Option<usize>; 3]) {
    let (parts, standing) = words.split_once("; ").unwrap_or((words, ""));
    let parts = parts.split(", wherever ").next().unwrap();
    let parts: Vec<_> = parts.split(", its ").collect();
    let place = match clause_type {
        1..=4 => {
            let (i, j) = stretch(parts[0]);
            (i, j, j)
        }
        _ => {
            let ((i, j), (start, k)) = (stretch(parts[0]), stretch(parts[1]));
            assert_eq!(start, if clause_type == 5 { j } else { i }, "{words}");
            (i, j, k)
        }
    };
    let mut names = [None; 3];
    for pair in numbers(standing).chunks(2) {
        names[pair[0]] = Some(pair[1]);
    }
    (place, names)
}

/// The command's words say what the reference finds: of each clause whether it holds, was never asked or
/// fails, where, and with which names.
#[test]
fn words_are_the_references() {
    let scratch = Scratch::new("explain");
    let mut random = Random::new(311);
    let mut failing = 0;
    for round in 0..400 {
        let draw: Draw = if round % 2 == 0 { generate::drawn } else { generate::shared };
        let clauses = random.between(1, 4);
        let (sheet, trace) = drawn_if(&mut random, draw, clauses, round % 2 == 0);
        let bytes = sheet.bytes();
        let Ok(source) = stored::sheet(&bytes) else { continue };
        let clauses = Clauses::new(&source, &trace.cycles, Rule::Stays);
        let (sheet, stored) = (scratch.file("sheet", &bytes), scratch.file("trace", trace.bytes()));
        let ran = run(&["explain", &sheet, &stored]);
        assert_eq!(ran.err, "", "{}", compare::kept(&bytes, &trace.bytes()));
        let lines: Vec<_> = ran.out.lines().collect();
        for (number, clause) in source.clauses.iter().enumerate() {
            let start = format!("clause {number}, ");
            let at = lines.iter().position(|line| line.starts_with(&start)).unwrap();
            let became = lines[at].split_once(": ").unwrap().1;
            let broken = clauses.first_broken(clause);
            let replay = || format!("{}\n{}", lines[at], compare::kept(&bytes, &trace.bytes()));
            assert_eq!(became.starts_with("fails"), broken.is_some(), "{}", replay());
            assert_eq!(became.starts_with("holds"), broken.is_none(), "{}", replay());
            if let Some(broken) = broken {
                let (place, names) = told(clause.clause_type, lines[at + 2].trim());
                assert_eq!(place, broken, "{}", replay());
                assert!(clauses.breaks_with(clause, place, names), "{}", replay());
                failing += 1;
            } else if !matches!(clause.clause_type, 1 | 3) {
                let asked = first_asked(&source, number, &trace.cycles);
                assert_eq!(became.contains("never asked"), asked.is_none(), "{}", replay());
            }
        }
    }
    assert!(failing >= 200, "{failing} failing clauses");
}

/// The examples, word for word.
#[test]
fn examples_in_words() {
    let ran = run(&["explain", "examples/reply/sheet.txt", "examples/reply/late.txt"]);
    let words = "\
BROKEN 1 2 7 7 0

Broken: clause 1 fails, and every assumption holds.

clause 0, an assumption: holds
    assume pref([[s2]]:)
clause 1, a commitment: fails from minute 2 to minute 7
    require implies(<s0> & slen = 5:, scount(s1) >= 1:)
    its first part holds from minute 2 to minute 7, its second doesn't hold there

minute   0123456789
s0       ..#.......
s1       .........#
s2       ##########
clause 1   ^^^^^^
";
    assert_eq!((ran.out.as_str(), ran.err.as_str(), ran.status), (words, "", 1));

    let ran = run(&["explain", "examples/before/sheet.txt", "examples/before/late.txt"]);
    let words = "\
BROKEN 0 2 8 6 0

Broken: clause 0 fails.

clause 0, a commitment: fails from minute 2 to minute 8
    require triggers(<s0> ^ (at(u0) & <s1>): u0, [[!u0]] & scount(s2) >= 1: u0, slen = 4:)
    its first part holds from minute 2 to minute 8, its third from minute 2 to minute 6 and no sooner, \
its second on no beginning of that; u0 is in minute 8

minute   0123456789
s0       ..#.......
s1       ........#.
s2       .......#..
clause 0   ^^^^^^^
  u0             ^
";
    assert_eq!((ran.out.as_str(), ran.err.as_str(), ran.status), (words, "", 1));

    let ran = run(&["explain", "examples/reply/sheet.txt", "-"]);
    assert_eq!((ran.out.as_str(), ran.status), ("REFUSED 10\n", 2));
    let quiet = command::run_with(&["explain", "examples/reply/sheet.txt", "-"], b"s2\ns2\n");
    assert!(quiet
        .out
        .contains("clause 1, a commitment: holds, and was never asked: its premise never came\n"));
    assert_eq!(quiet.status, 0);
}
