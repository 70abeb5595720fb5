//! The reference against the plain bit-parallel checker of the benchmark, on random sheets: two
//! readings of document 01 that share no code. Needs no archive.

mod build;
mod generate;
#[path = "../benches/plain/mod.rs"]
mod plain;
mod reference;

use build::{hex, Sheet};
use generate::{Random, Shape};
use reference::clauses::{Finding, Verdict};

fn as_reference(plain::Verdict { finding, advice }: plain::Verdict) -> Verdict {
    let finding = match finding {
        plain::Finding::Holds => Finding::Holds,
        plain::Finding::Excused(clause) => Finding::Excused(clause),
        plain::Finding::Broken(clause, i, j, k) => Finding::Broken(clause, i, j, k),
    };
    Verdict { finding, advice }
}

/// So many random sheets of up to so many clauses, put through `turn`. Gives how many verdicts were
/// Holds, Excused and Broken, and under each of them how many had advice that fails.
fn run(
    seed: u64,
    sheets: usize,
    clauses: usize,
    turn: fn(&mut Random, &Sheet) -> Sheet,
) -> ([usize; 3], [usize; 3]) {
    let mut random = Random::new(seed);
    let (mut counts, mut advised) = ([0; 3], [0; 3]);
    for case in 0..sheets {
        let shape = Shape {
            signals: random.between(1, 3),
            names: random.below(4),
            nodes: random.between(2, 16),
            clauses: random.between(1, clauses),
            numbers: 5,
        };
        let sheet = if case % 3 == 0 {
            generate::marked(&mut random, shape)
        } else if case % 3 == 1 {
            generate::plain(&mut random, shape)
        } else {
            generate::drawn(&mut random, shape)
        };
        let sheet = turn(&mut random, &sheet);
        let cycles = random.between(1, 7);
        let trace = generate::trace(&mut random, shape.signals, cycles);
        let (sheet, trace) = (sheet.bytes(), trace.bytes());
        let replay = || format!("sheet {}\ntrace {}", hex(&sheet), hex(&trace));
        let expected = reference::check(&sheet, &trace, 4096);
        let expected = expected.unwrap_or_else(|n| panic!("refused {n}\n{}", replay()));
        let mut checker = plain::Checker::new(&sheet, &trace);
        assert_eq!(as_reference(checker.check()), expected, "{}", replay());
        let under = match expected.finding {
            Finding::Holds => 0,
            Finding::Excused(_) => 1,
            Finding::Broken(..) => 2,
        };
        counts[under] += 1;
        advised[under] += (expected.advice != 0) as usize;
        let places = [0; 3].map(|_| random.below(cycles));
        let read = reference::stored::sheet(&sheet).unwrap();
        for node in
            (0..read.nodes.len()).filter(|&i| reference::stored::is_formula(read.nodes[i].op))
        {
            let rows = reference::table(&sheet, &trace, node, places, 4096, 64).unwrap();
            let found = checker.table(node, places);
            assert_eq!(found[..cycles], rows[..cycles], "node {node} at {places:?}\n{}", replay());
        }
    }
    println!("{counts:?} hold, are excused, are broken; advice fails in {advised:?} of them");
    (counts, advised)
}

#[test]
fn random_sheets() {
    let (counts, advised) = run(1, 3000, 3, |_, sheet| sheet.clone());
    assert!(counts.iter().all(|&count| count >= 150), "a verdict came too seldom");
    assert_eq!(advised, [0; 3], "advice where no clause is any");
}

#[test]
fn sheets_with_advice() {
    let (_, advised) = run(2, 2000, 8, generate::advised);
    assert!(advised.iter().all(|&count| count >= 150), "failing advice came too seldom");
}
