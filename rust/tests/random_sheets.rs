//! Thousands of random sheets and traces, the library beside the reference. Seeds are fixed; a
//! difference prints the bytes, which `replay` takes again.

mod build;
mod compare;
mod generate;
mod reference;

use build::{from_hex, hex, Part, Role, Sheet};
use compare::Tally;
use generate::{damaged, Draw, Random, Shape, DRAWS};
use reference::clauses::{finding_by, Finding, Rule};
use reference::stored::{self, is_formula};

/// Columns of all names together that are still enumerated: cycles · names.
const COLUMNS: usize = 12;

/// One check, tables of some nodes and, where the columns can be enumerated, the formula. Gives the
/// cycles of the trace that was drawn for them.
fn one(random: &mut Random, tally: &mut Tally, sheet: &Sheet, cycles: usize) -> Vec<u16> {
    let bytes = sheet.bytes();
    let trace = generate::trace(random, sheet.signals as usize, cycles);
    let trace_bytes = trace.bytes();
    let words = random.pick(&[4096, 4096, 4097, 5000]);
    let verdict = compare::check(&bytes, &trace_bytes, words);
    assert!(verdict.is_ok(), "a good sheet was refused by {}", verdict.unwrap_err());
    tally.count(&verdict);

    let formulas: Vec<usize> =
        (0..sheet.nodes.len()).filter(|&i| is_formula(sheet.nodes[i][0])).collect();
    for _ in 0..3 {
        let node = random.pick(&formulas);
        let places = [0; 3].map(|_| random.below(cycles));
        let places: [usize; 3] = std::array::from_fn(|u| {
            if u < sheet.names as usize {
                places[u]
            } else {
                random.next() as usize
            }
        });
        compare::table(&bytes, &trace_bytes, node, places, words, 64).unwrap();
        tally.tables += 1;
    }

    let translated = compare::translate(&bytes, 8192).unwrap();
    tally.formulas += 1;
    if cycles * sheet.names as usize <= COLUMNS {
        tally.evaluated(translated.agrees(&trace.cycles));
    }
    trace.cycles
}

/// Whether the rule of request 4 decides: the finding would have been another one before it.
fn decides(sheet: &stored::Sheet, trace: &[u16]) -> bool {
    finding_by(Rule::Stays, sheet, trace) != finding_by(Rule::Inside, sheet, trace)
}

fn short(seed: u64, draw: Draw, what: &str, least: [usize; 6]) {
    let mut random = Random::new(seed);
    let mut tally = Tally::default();
    for _ in 0..4000 {
        let shape = Shape {
            signals: random.between(1, 4),
            names: random.below(4),
            nodes: random.between(2, 20),
            clauses: random.between(1, 4),
            numbers: 5,
        };
        let sheet = draw(&mut random, shape);
        let cycles = random.between(1, 6);
        one(&mut random, &mut tally, &sheet, cycles);
    }
    tally.demand(what, least);
}

#[test]
fn plain_and_short() {
    short(11, generate::plain, "plain and short", [800, 400, 800, 0, 1000, 700]);
}

#[test]
fn drawn_and_short() {
    short(12, generate::drawn, "drawn and short", [700, 500, 800, 0, 1000, 700]);
}

#[test]
fn marked_and_short() {
    let mut random = Random::new(13);
    let mut tally = Tally::default();
    for _ in 0..8000 {
        let names = random.between(1, 3);
        let shape =
            Shape { signals: random.between(1, 2), names, nodes: 0, clauses: 1, numbers: 4 };
        let sheet = generate::marked(&mut random, shape);
        let cycles = random.between(1, [0, 6, 5, 4][names]);
        one(&mut random, &mut tally, &sheet, cycles);
    }
    tally.demand("marked and short", [2500, 0, 1500, 0, 2500, 1500]);
}

/// Parts that share names, and how many of the verdicts that are compared the rule of request 4
/// decides.
#[test]
fn shared_and_short() {
    let mut random = Random::new(14);
    let mut tally = Tally::default();
    let mut decided = 0;
    for _ in 0..12_000 {
        let names = random.between(1, 3);
        let shape =
            Shape { signals: random.between(1, 2), names, nodes: 0, clauses: 1, numbers: 4 };
        let sheet = generate::shared(&mut random, shape);
        let cycles = random.between(3, [0, 6, 5, 4][names]);
        let trace = one(&mut random, &mut tally, &sheet, cycles);
        let source = stored::sheet(&sheet.bytes()).unwrap();
        decided += decides(&source, &trace) as usize;
    }
    tally.demand("shared and short", [3000, 0, 3000, 0, 3000, 3000]);
    compare::report(format!("shared and short: request 4 decides {decided} verdicts"));
    assert!(decided >= 800, "{decided} verdicts");
}

/// The same on every trace of up to four cycles of one signal, with the formula over all columns.
#[test]
fn shared_on_every_trace() {
    let mut random = Random::new(15);
    let mut tally = Tally::default();
    let mut decided = 0;
    for _ in 0..600 {
        let shape =
            Shape { signals: 1, names: random.between(1, 3), nodes: 0, clauses: 1, numbers: 4 };
        let translated =
            compare::translate(&generate::shared(&mut random, shape).bytes(), 8192).unwrap();
        tally.formulas += 1;
        for cycles in 1..=4 {
            for word in 0..1u16 << cycles {
                let trace: Vec<u16> = (0..cycles).map(|t| word >> t & 1).collect();
                tally.evaluated(translated.agrees(&trace));
                decided += decides(&translated.source, &trace) as usize;
            }
        }
    }
    tally.demand("shared, on every trace", [0, 0, 0, 0, 5000, 5000]);
    compare::report(format!("shared, on every trace: request 4 decides {decided} verdicts"));
    assert!(decided >= 1200, "{decided} verdicts");
}

/// Sheets with advice, up to eight clauses, and how many of the verdicts that are compared have
/// advice that fails.
#[test]
fn advised_and_short() {
    let mut random = Random::new(16);
    let mut tally = Tally::default();
    for case in 0..6000 {
        let shape = Shape {
            signals: random.between(1, 4),
            names: random.below(4),
            nodes: random.between(2, 24),
            clauses: random.pick(&[1, 2, 3, 4, 5, 6, 7, 8, 8, 8]),
            numbers: 5,
        };
        let sheet = DRAWS[case % 2](&mut random, shape);
        let sheet = generate::advised(&mut random, &sheet);
        let cycles = random.between(1, 6);
        one(&mut random, &mut tally, &sheet, cycles);
    }
    tally.demand("advised and short", [1000, 1000, 1000, 0, 1000, 700]);
    tally.demand_advice("advised and short", [800, 800, 800]);
    tally.demand_bits("advised and short", 200);
}

/// The same with no name or one on long traces.
#[test]
fn advised_and_long() {
    let mut random = Random::new(17);
    let mut tally = Tally::default();
    for case in 0..150 {
        let shape = Shape {
            signals: random.between(1, 16),
            names: case % 2,
            nodes: random.between(6, 20),
            clauses: random.between(1, 8),
            numbers: random.pick(&[5, 20, 70]),
        };
        let sheet = DRAWS[case / 2 % 2](&mut random, shape);
        let sheet = generate::advised(&mut random, &sheet);
        let cycles = random.pick(&[33, 63, 64, 64]);
        one(&mut random, &mut tally, &sheet, cycles);
    }
    tally.demand_advice("advised and long", [15, 15, 15]);
}

/// The finding of a sheet by the numbers that its clauses have in another.
fn renumbered(finding: Finding, numbers: &[usize]) -> Finding {
    match finding {
        Finding::Holds => Finding::Holds,
        Finding::Excused(clause) => Finding::Excused(numbers[clause]),
        Finding::Broken(clause, i, j, k) => Finding::Broken(numbers[clause], i, j, k),
    }
}

/// Every choice of a sheet's clauses turned to advice: each fails exactly if it fails where all
/// clauses are advice, and the finding is that of the sheet from which they are cut out.
#[test]
fn every_choice_of_advice() {
    let mut random = Random::new(18);
    let mut tally = Tally::default();
    for case in 0..600 {
        let shape = Shape {
            signals: random.between(1, 3),
            names: random.below(4),
            nodes: random.between(3, 16),
            clauses: random.between(2, 4),
            numbers: 5,
        };
        let sheet = DRAWS[case % 2](&mut random, shape);
        let cycles = random.between(1, 5);
        let trace = generate::trace(&mut random, shape.signals, cycles).bytes();
        let verdict = |sheet: &Sheet| compare::check(&sheet.bytes(), &trace, 4096).unwrap();
        let all = sheet.all_clauses();
        let failing = verdict(&sheet.with_advice(all)).advice;
        for set in 0..=all {
            let advised = sheet.with_advice(set);
            let replay = || format!("sheet {}\ntrace {}", hex(&advised.bytes()), hex(&trace));
            let found = verdict(&advised);
            assert_eq!(found.advice, failing & set, "{}", replay());
            let holds = failing & !set == 0;
            assert_eq!(found.finding == Finding::Holds, holds, "{}", replay());
            if set < all {
                let left: Vec<usize> = (0..shape.clauses).filter(|k| set >> k & 1 == 0).collect();
                let without = verdict(&sheet.without(set));
                assert_eq!(found.finding, renumbered(without.finding, &left), "{}", replay());
            }
            tally.count(&Ok(found));
        }
    }
    tally.demand("every choice of advice", [1500, 500, 1000, 0, 0, 0]);
    tally.demand_advice("every choice of advice", [1000, 250, 500]);
}

/// The formula of a sheet with advice is, byte for byte, that of the sheet from which the advice is
/// cut out; of advice alone it is true of every trace.
#[test]
fn formulas_without_advice() {
    let mut random = Random::new(19);
    let mut tally = Tally::default();
    let mut alone = 0;
    for case in 0..1500 {
        let names = random.below(4);
        let shape = Shape {
            signals: random.between(1, 3),
            names,
            nodes: random.between(3, 20),
            clauses: random.between(1, 8),
            numbers: 5,
        };
        let sheet = DRAWS[case % 2](&mut random, shape);
        let set = random.between(1, sheet.all_clauses() as usize) as u8;
        let advised = sheet.with_advice(set).bytes();
        let only_advice = set == sheet.all_clauses();
        if !only_advice {
            let without = fasunqir::bytes::translate(&sheet.without(set).bytes());
            assert_eq!(fasunqir::bytes::translate(&advised), without, "sheet {}", hex(&advised));
        }
        let translated = compare::translate(&advised, 8192).unwrap();
        tally.formulas += 1;
        for _ in 0..3 {
            let cycles = random.between(1, [6, 6, 5, 4][names]);
            let trace = generate::trace(&mut random, shape.signals, cycles);
            tally.count(&compare::check(&advised, &trace.bytes(), 4096));
            let truth = translated.agrees(&trace.cycles);
            assert!(truth || !only_advice, "sheet {}", hex(&advised));
            tally.evaluated(truth);
        }
        alone += only_advice as usize;
    }
    tally.demand("formulas without advice", [800, 800, 800, 0, 1500, 800]);
    tally.demand_advice("formulas without advice", [500, 500, 500]);
    compare::report(format!("formulas without advice: {alone} sheets of advice alone"));
    assert!(alone >= 200, "{alone} sheets of advice alone");
}

/// Long traces: many nodes without names, few with them.
struct Long {
    seed: u64,
    names: usize,
    sheets: usize,
    nodes: usize,
    cycles: (usize, usize),
}

fn long(what: &str, shape: Long, least: [usize; 6]) {
    let Long { seed, names, sheets, nodes, cycles } = shape;
    let mut random = Random::new(seed);
    let mut tally = Tally::default();
    for case in 0..sheets {
        let shape = Shape {
            signals: random.between(1, 16),
            names,
            nodes: random.between(nodes / 2, nodes),
            clauses: random.between(1, if names < 2 { 3 } else { 1 }),
            numbers: random.pick(&[5, 20, 70]),
        };
        let sheet = DRAWS[case % 3](&mut random, shape);
        // Half of them of the greatest length.
        let cycles = if case % 4 < 2 { cycles.1 } else { random.between(cycles.0, cycles.1) };
        one(&mut random, &mut tally, &sheet, cycles);
    }
    tally.demand(what, least);
}

#[test]
fn long_without_names() {
    let shape = Long { seed: 21, names: 0, sheets: 400, nodes: 40, cycles: (33, 64) };
    long("long, no names", shape, [60, 30, 100, 0, 90, 100]);
}

#[test]
fn long_with_one_name() {
    let shape = Long { seed: 22, names: 1, sheets: 120, nodes: 12, cycles: (33, 64) };
    long("long, one name", shape, [20, 10, 30, 0, 0, 0]);
}

#[test]
fn long_with_two_names() {
    let shape = Long { seed: 23, names: 2, sheets: 40, nodes: 10, cycles: (16, 24) };
    long("long, two names", shape, [10, 0, 8, 0, 0, 0]);
}

#[test]
fn long_with_three_names() {
    let shape = Long { seed: 24, names: 3, sheets: 24, nodes: 10, cycles: (8, 12) };
    long("long, three names", shape, [8, 0, 2, 0, 0, 0]);
}

/// Sheets at the limits of kind 1, on short traces.
#[test]
fn full() {
    let mut random = Random::new(31);
    let mut tally = Tally::default();
    for case in 0..300 {
        let shape = Shape {
            signals: random.pick(&[1, 15, 16]),
            names: 3,
            nodes: random.between(60, 64),
            clauses: random.between(7, 8),
            numbers: 4,
        };
        let sheet = DRAWS[case % 2](&mut random, shape);
        let cycles = random.between(1, 3);
        one(&mut random, &mut tally, &sheet, cycles);
    }
    tally.demand("full", [3, 90, 50, 0, 90, 50]);
}

/// The sheets that need most nodes: every node a drawing, every clause with three parts of three
/// names.
#[test]
fn most_nodes() {
    let mut tally = Tally::default();
    let drawings: [[u8; 6]; 4] = [
        [29, 0x01, 0, 1, 0, 2],
        [29, 0x22, 0, 0, 255, 255],
        [27, 7, 0, 0, 0, 0],
        [28, 0, 0, 1, 0, 0],
    ];
    for node in drawings {
        for clause_type in 1..=6 {
            for role in 0..3 {
                let mut sheet = Sheet::new(1, 3);
                sheet.nodes = vec![node; 64];
                let parts = [1, 2, 1, 2, 3, 3][clause_type as usize - 1];
                let mut clause = [clause_type, role, 0, 63, 0, 62, 0, 61, 7, 7, 7];
                clause[2 + 2 * parts..8].fill(0);
                clause[8 + parts..].fill(0);
                sheet.clauses = vec![clause; 8];
                let mut random = Random::new(32 + clause_type as u64);
                for cycles in 1..=3 {
                    one(&mut random, &mut tally, &sheet, cycles);
                }
            }
        }
    }
    tally.demand("most nodes", [50, 8, 8, 0, 60, 8]);
    tally.demand_advice("most nodes", [8, 0, 0]);
}

/// Each sheet on every trace of up to three cycles.
#[test]
fn every_short_trace() {
    let mut random = Random::new(41);
    let mut tally = Tally::default();
    for case in 0..250 {
        let shape = Shape {
            signals: random.between(1, 2),
            names: random.below(4),
            nodes: random.between(3, 16),
            clauses: random.between(1, 2),
            numbers: 4,
        };
        let sheet = DRAWS[case % 3](&mut random, shape);
        let translated = compare::translate(&sheet.bytes(), 8192).unwrap();
        tally.formulas += 1;
        for cycles in 1..=3 {
            for word in 0..1u32 << (cycles * shape.signals) {
                let trace: Vec<u16> = (0..cycles)
                    .map(|t| (word >> (t * shape.signals)) as u16 & ((1 << shape.signals) - 1))
                    .collect();
                tally.evaluated(translated.agrees(&trace));
            }
        }
    }
    tally.demand("every short trace", [0, 0, 0, 0, 4000, 2000]);
}

/// The formula over all columns of four and five cycles.
#[test]
fn every_column() {
    let mut random = Random::new(42);
    let mut tally = Tally::default();
    for case in 0..240 {
        let names = random.between(1, 3);
        let shape = Shape {
            signals: random.between(1, 3),
            names,
            nodes: random.between(3, 12),
            clauses: 1,
            numbers: 5,
        };
        let sheet = DRAWS[case % 3](&mut random, shape);
        let translated = compare::translate(&sheet.bytes(), 8192).unwrap();
        tally.formulas += 1;
        let cycles = random.between(4, [0, 9, 6, 5][names]);
        let trace = generate::trace(&mut random, shape.signals, cycles);
        tally.evaluated(translated.agrees(&trace.cycles));
    }
    tally.demand("every column", [0, 0, 0, 0, 70, 40]);
}

/// Lists of cycles that no stored trace holds: the formula and the requirement still agree.
#[test]
fn longer_than_stored() {
    let mut random = Random::new(43);
    let mut tally = Tally::default();
    for case in 0..60 {
        let shape = Shape {
            signals: random.between(1, 3),
            names: 0,
            nodes: random.between(4, 20),
            clauses: random.between(1, 2),
            numbers: 80,
        };
        let sheet = DRAWS[case % 3](&mut random, shape);
        let translated = compare::translate(&sheet.bytes(), 8192).unwrap();
        tally.formulas += 1;
        let cycles = random.between(65, 100);
        let trace = generate::trace(&mut random, shape.signals, cycles);
        tally.evaluated(translated.agrees(&trace.cycles));
    }
    tally.demand("longer than stored", [0, 0, 0, 0, 15, 10]);
}

/// Good sheets and traces with one or two fields changed, and odd nodes, cycles and buffers.
#[test]
fn damaged_fields() {
    let mut random = Random::new(51);
    let mut tally = Tally::default();
    for case in 0..40_000 {
        let shape = Shape {
            signals: random.between(1, 3),
            names: random.below(4),
            nodes: random.between(2, 10),
            clauses: random.between(1, 2),
            numbers: 4,
        };
        let sheet = DRAWS[case % 2](&mut random, shape).bytes();
        let cycles = random.between(1, 4);
        let trace = generate::trace(&mut random, shape.signals, cycles).bytes();
        let sheet = if case % 4 != 0 { damaged(&mut random, &sheet) } else { sheet };
        let trace = if case % 4 != 1 { damaged(&mut random, &trace) } else { trace };
        let words = random.pick(&[0, 64, 4095, 4096, 4096, 4096, 4097]);
        tally.count(&compare::check(&sheet, &trace, words));
        let node = random.below(shape.nodes + 2);
        let places = [0; 3].map(|_| random.below(cycles + 1));
        let rows = random.pick(&[0, 63, 64, 64, 64, 64, 65]);
        let table = compare::table(&sheet, &trace, node, places, words, rows);
        tally.tables += 1;
        if let Err(number @ 16..) = table {
            tally.numbers[number as usize] += 1;
        }
        let out = random.pick(&[0, 8191, 8192, 8192, 8192, 8193]);
        match compare::translate(&sheet, out) {
            Ok(_) => tally.formulas += 1,
            Err(14) => tally.numbers[14] += 1,
            Err(_) => (),
        }
    }
    tally.demand("damaged", [200, 40, 120, 20_000, 0, 0]);
    tally.demand_numbers("damaged", 1..=17, 60);
}

/// Every byte of a few sheets and traces set to every value.
#[test]
fn every_byte() {
    let mut tally = Tally::default();
    let mut sheet = Sheet::new(2, 2);
    let p = sheet.signal(1);
    let u = sheet.name(0);
    let both = sheet.and(p, u);
    let at_both = sheet.point(both);
    let gap = sheet.gap(0, 1, 0, 1);
    let count = sheet.scount(p, build::Compare::AtLeast, 1);
    let row = sheet.chop(at_both, count);
    let mark = sheet.mark(1);
    sheet.follows(Role::Commitment, Part(row, 1), Part(gap, 3), Part(mark, 2));
    sheet.anti(Role::Advice, Part(at_both, 1));
    let sheet = sheet.bytes();
    let trace = build::Trace::drawn(&["011", "110"]).bytes();
    for at in 0..sheet.len() {
        for value in 0..=255 {
            let mut changed = sheet.clone();
            changed[at] = value;
            tally.count(&compare::check(&changed, &trace, 4096));
            compare::table(&changed, &trace, 6, [1, 2, 0], 4096, 64).ok();
            tally.tables += 1;
            tally.formulas += compare::translate(&changed, 8192).is_ok() as usize;
        }
    }
    for at in 0..trace.len() {
        for value in 0..=255 {
            let mut changed = trace.clone();
            changed[at] = value;
            tally.count(&compare::check(&sheet, &changed, 4096));
            compare::table(&sheet, &changed, 6, [1, 2, 0], 4096, 64).ok();
            tally.tables += 1;
        }
    }
    tally.demand("every byte", [250, 1, 300, 9000, 0, 0]);
    tally.demand_advice("every byte", [250, 1, 300]);
}

/// Runs again what a failure printed: FASUNQIR_SHEET and FASUNQIR_TRACE in hexadecimal.
#[test]
#[ignore]
fn replay() {
    let bytes = |name: &str| from_hex(&std::env::var(name).unwrap_or_default());
    let (sheet, trace) = (bytes("FASUNQIR_SHEET"), bytes("FASUNQIR_TRACE"));
    compare::report(format!("check {:?}", compare::check(&sheet, &trace, 4096)));
    if let Ok(translated) = compare::translate(&sheet, 8192) {
        let cycles = stored::trace(&trace, &translated.source);
        for node in (0..translated.source.nodes.len())
            .filter(|&i| is_formula(translated.source.nodes[i].op))
        {
            compare::table(&sheet, &trace, node, [0; 3], 4096, 64).ok();
        }
        if let Ok(cycles) = cycles {
            if cycles.len() * translated.source.names <= 15 {
                compare::report(format!("formula {}", translated.agrees(&cycles)));
            }
        }
    }
}
