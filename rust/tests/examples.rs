//! The library on document 01's examples, program input and traps, on names that stay (request 4), on
//! advice (request 5), and on the specifications of document 004.

mod build;
mod cases;
mod compare;
mod generate;
mod reference;

use cases::{advice, examples, names, paper, Case};
use compare::Tally;
use generate::Random;
use reference::stored::is_formula;

/// The verdict, every table of the sheet, and the formula on short traces: as many of them true and
/// as many false as there are cases, at least.
fn run(what: &str, cases: Vec<Case>) {
    let least = cases.len();
    ran(cases).demand(what, [0, 0, 0, 0, least, least]);
}

fn ran(cases: Vec<Case>) -> Tally {
    let mut tally = Tally::default();
    let mut random = Random::new(3);
    for case in &cases {
        let verdict = compare::check(&case.sheet, &case.trace, 4096);
        assert_eq!(verdict, Ok(case.verdict), "{}", case.what);
        tally.count(&verdict);
        let translated = compare::translate(&case.sheet, 8192).unwrap();
        tally.formulas += 1;
        let source = &translated.source;
        let cycles = (case.trace.len() - 4) / 2;
        for node in (0..source.nodes.len()).filter(|&i| is_formula(source.nodes[i].op)) {
            let places = [0; 3].map(|_| random.below(cycles));
            compare::table(&case.sheet, &case.trace, node, places, 4096, 64).unwrap();
            tally.tables += 1;
        }
        if source.names == 0 {
            let words = reference::stored::trace(&case.trace, source).unwrap();
            tally.evaluated(translated.agrees(&words));
        }
        for _ in 0..20 {
            let cycles = random.between(1, [5, 5, 4, 3][source.names]);
            let trace = generate::trace(&mut random, source.signals, cycles);
            tally.evaluated(translated.agrees(&trace.cycles));
        }
    }
    tally
}

#[test]
fn proved_examples() {
    for case in examples::proved() {
        let rows = compare::table(&case.sheet, &case.trace, case.node, case.cycles, 4096, 64);
        assert_eq!(rows.unwrap()[case.b] >> case.e & 1 == 1, case.holds, "{}", case.what);
    }
}

#[test]
fn program_input() {
    let case = examples::program();
    let verdict = fasunqir::bytes::check(&case.sheet, &case.trace).unwrap();
    assert_eq!(verdict.to_string(), "BROKEN 0 2 2 2 0");
    run("program input", vec![case]);
}

#[test]
fn traps() {
    run("traps", examples::traps());
}

#[test]
fn corners() {
    run("corners", examples::corners());
}

#[test]
fn names_that_stay() {
    run("names that stay", names::cases().into_iter().map(|stays| stays.case).collect());
}

#[test]
fn advice_beside_commitments() {
    for advised in advice::cases() {
        let verdict = fasunqir::bytes::check(&advised.case.sheet, &advised.case.trace).unwrap();
        assert_eq!(verdict.to_string(), advised.line, "{}", advised.case.what);
        let bits: u8 = verdict.failing_advice().map(|clause| 1 << clause).sum();
        assert_eq!(bits, verdict.advice, "{}", advised.case.what);
    }
    run("advice", advice::cases().into_iter().map(|advised| advised.case).collect());
}

/// With nothing but advice the requirement is true of every trace.
#[test]
fn names_that_stay_in_advice() {
    let cases = advice::names_that_stay();
    let least = cases.len();
    let tally = ran(cases);
    tally.demand("names that stay in advice", [least, 0, 0, 0, 20 * least, 0]);
    tally.demand_advice("names that stay in advice", [4, 0, 0]);
    assert_eq!(tally.falsehoods, 0);
}

#[test]
fn specifications_of_the_paper() {
    run("specifications of the paper", paper::cases());
}
