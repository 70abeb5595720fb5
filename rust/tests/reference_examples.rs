//! The reference on the cases with a known verdict. Needs no archive.

mod build;
mod cases;
mod reference;

use build::{hex, Compare, Sheet, Trace};
use cases::{advice, examples, names, paper, Case};
use reference::board::Board;
use reference::clauses::{finding_by, Finding, Rule, Verdict};
use reference::{formula, stored};

fn run(cases: Vec<Case>) {
    for case in &cases {
        assert_eq!(
            reference::check(&case.sheet, &case.trace, 4096),
            Ok(case.verdict),
            "{}\nsheet {}\ntrace {}",
            case.what,
            hex(&case.sheet),
            hex(&case.trace)
        );
    }
    println!("{} cases", cases.len());
}

#[test]
fn proved_examples() {
    for case in examples::proved() {
        let rows = reference::table(&case.sheet, &case.trace, case.node, case.cycles, 4096, 64);
        assert_eq!(rows.unwrap()[case.b] >> case.e & 1 == 1, case.holds, "{}", case.what);
    }
}

#[test]
fn program_input() {
    let case = examples::program();
    let mut input = [case.sheet.clone(), case.trace.clone()].concat();
    assert_eq!(reference::program::line(&input), "BROKEN 0 2 2 2 0\n");
    assert_eq!(reference::program::line(&input[..5]), "REFUSED 1\n");
    assert_eq!(reference::program::line(&input[..32]), "REFUSED 10\n");
    input.resize(5000, 0);
    assert_eq!(reference::program::line(&input), "REFUSED 10\n");
    run(vec![case]);
}

/// The scope paper's sheet on a board: two quiet minutes, refused ones among them, and the third.
#[test]
fn board() {
    let sheet = examples::program().sheet;
    let lines = |minutes: &[u8]| {
        let answers = reference::program::answers(&[&sheet, minutes].concat());
        reference::program::lines(answers).concat()
    };
    assert_eq!(lines(&[]), "");
    assert_eq!(lines(&[0]), "");
    assert_eq!(lines(&[0, 0, 0, 0, 0, 1, 0]), "HOLDS 0\nHOLDS 0\nBROKEN 0 2 2 2 0\n");
    assert_eq!(
        lines(&[0, 0, 0, 2, 0, 0, 128, 1, 0, 1]),
        "HOLDS 0\nREFUSED 21\nHOLDS 0\nREFUSED 21\nBROKEN 0 2 2 2 0\n"
    );
    assert_eq!(reference::program::answers(&sheet[..31]), Err(1));

    let mut board = Board::open(&sheet).unwrap();
    assert_eq!(board.feed(2, 4095), Err(15));
    for _ in 0..64 {
        board.feed(0, 4096).unwrap();
    }
    let full = board.verdict;
    assert!(full.is_some());
    assert_eq!(
        [board.feed(1, 4095), board.feed(2, 4096), board.feed(1, 4096)],
        [15, 21, 22].map(Err)
    );
    assert_eq!((board.verdict, board.cycles.len()), (full, 64));

    // By hand: the sheet ends where it says, and only what is taken is looked at.
    let after = [&sheet[..], &[255; 449]].concat();
    let by_hand = |cycles: &[u16], taken| Board::by_hand(&after, cycles, taken).feed(0, 4096);
    let broken = Ok(Verdict { finding: Finding::Broken(0, 0, 0, 0), advice: 0 });
    assert_eq!(by_hand(&[1, 0, 2, 2], 2), broken);
    assert_eq!(by_hand(&[1, 0, 2, 2], 3), Err(13));
    assert_eq!([64, 65, usize::MAX].map(|taken| by_hand(&[0; 64], taken)), [22, 13, 13].map(Err));
}

#[test]
fn traps() {
    run(examples::traps());
}

#[test]
fn corners() {
    run(examples::corners());
}

#[test]
fn names_that_stay() {
    for stays in names::cases() {
        let sheet = stored::sheet(&stays.case.sheet).unwrap();
        let trace = stored::trace(&stays.case.trace, &sheet).unwrap();
        let before = finding_by(Rule::Inside, &sheet, &trace);
        assert_eq!(before, stays.before, "{}, before", stays.case.what);
        run(vec![stays.case]);
    }
}

#[test]
fn advice_beside_commitments() {
    for advised in advice::cases() {
        let input = [&advised.case.sheet[..], &advised.case.trace].concat();
        let line = advised.line.to_string() + "\n";
        assert_eq!(reference::program::line(&input), line, "{}", advised.case.what);
    }
    run(advice::cases().into_iter().map(|advised| advised.case).collect());
    run(advice::names_that_stay());
}

#[test]
fn specifications_of_the_paper() {
    run(paper::cases());
}

/// The sheet that a formula of one signal and these names would be a translation of.
fn source(names: u8) -> stored::Sheet {
    let mut sheet = Sheet::new(1, names);
    let any = sheet.anywhere();
    sheet.pref(build::Role::Commitment, build::Part(any, 0));
    stored::sheet(&sheet.bytes()).unwrap()
}

fn emitted(names: u8, write: impl Fn(&mut Sheet)) -> Vec<u8> {
    let mut sheet = Sheet::new(1, names);
    sheet.kind = 2;
    write(&mut sheet);
    sheet.bytes()
}

#[test]
fn formulas() {
    let trace = [1, 0, 1];
    let truth = |names, write: &dyn Fn(&mut Sheet)| {
        formula::truth(&formula::formula(&emitted(names, write), &source(names)).unwrap(), &trace)
    };
    assert!(truth(0, &|s| {
        let p = s.signal(0);
        s.scount(p, Compare::Equal, 2);
    }));
    // Some column marks two cycles, and none marks four of three.
    for (count, expected) in [(2, true), (3, true), (4, false)] {
        let found = truth(1, &|s| {
            let u = s.name(0);
            let marked = s.scount(u, Compare::Equal, count);
            s.some(0, marked);
        });
        assert_eq!(found, expected, "{count}");
    }
    // Not every column of u is a column of v.
    assert!(truth(2, &|s| {
        let (u, v) = (s.name(0), s.name(1));
        let (not_u, not_v) = (s.not(u), s.not(v));
        let (neither, both) = (s.and(not_u, not_v), s.and(u, v));
        let same = s.or(neither, both);
        let equal = s.whole(same);
        let different = s.negation(equal);
        let inner = s.some(1, different);
        s.some(0, inner);
    }));
}

#[test]
fn forms() {
    let wrong = |names, write: &dyn Fn(&mut Sheet)| {
        formula::formula(&emitted(names, write), &source(names)).unwrap_err()
    };
    let free = wrong(1, &|s| {
        let u = s.name(0);
        s.point(u);
    });
    assert_eq!(free, "a name is free at the root");
    let elsewhere = wrong(2, &|s| {
        let u = s.name(0);
        let at_u = s.point(u);
        s.some(1, at_u);
    });
    assert_eq!(elsewhere, "a name is free at the root");
    assert_eq!(
        wrong(1, &|s| {
            s.mark(0);
        }),
        "op of node 0"
    );
    assert_eq!(
        wrong(0, &|s| {
            s.signal(0);
        }),
        "the root is a proposition"
    );
    assert_eq!(
        wrong(0, &|s| {
            s.signal(1);
        }),
        "field of node 0"
    );
    assert_eq!(
        wrong(0, &|s| {
            s.node(30, 0, 0, 0);
        }),
        "operand"
    );
    assert_eq!(
        wrong(0, &|s| {
            s.node(24, 0, 1, 0);
        }),
        "unused field of node 0"
    );
    let many = wrong(0, &|s| {
        for _ in 0..21 {
            s.anywhere();
        }
    });
    assert_eq!(many, "more nodes than the bound");
    assert_eq!(formula::bound(&source(0)), 20);
}

#[test]
fn hexadecimal() {
    let trace = Trace::drawn(&["01", "11"]).bytes();
    assert_eq!(hex(&trace), "00 06 01 02 00 02 00 03");
    assert_eq!(build::from_hex(&hex(&trace)), trace);
}
