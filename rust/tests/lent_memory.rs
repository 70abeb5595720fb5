//! What is lent to check, table, translate and a board, before and after; buffers one too short, just
//! long enough and much too long. For typed sheets `texts` has the same.

mod build;
mod cases;
mod compare;
mod reference;

use cases::{advice, examples, paper, Case};
use compare::board::Boards;

fn all() -> Vec<Case> {
    let mut cases = vec![examples::program()];
    cases.extend(examples::corners());
    cases.extend(paper::cases());
    cases.extend(advice::cases().into_iter().map(|advised| advised.case));
    cases
}

const WORDS: [usize; 8] = [0, 1, 64, 4095, 4096, 4097, 8192, 100_000];

#[test]
fn words() {
    for case in all() {
        for words in WORDS {
            let found = compare::check(&case.sheet, &case.trace, words);
            let expected = if words < 4096 { Err(15) } else { Ok(case.verdict) };
            assert_eq!(found, expected, "{}, {words} words", case.what);
        }
    }
}

/// A board that is fed the trace cycle by cycle, in as many words each time.
#[test]
fn boards() {
    for case in all() {
        let source = reference::stored::sheet(&case.sheet).unwrap();
        let trace = reference::stored::trace(&case.trace, &source).unwrap();
        for words in WORDS {
            let mut boards = Boards::open(&case.sheet).unwrap();
            let last = trace.iter().map(|&cycle| boards.feed(cycle, words)).last().unwrap();
            let expected = if words < 4096 { Err(15) } else { Ok(case.verdict) };
            assert_eq!(last, expected, "{}, {words} words", case.what);
        }
    }
}

#[test]
fn rows() {
    for case in all() {
        let source = reference::stored::sheet(&case.sheet).unwrap();
        let node = source.clauses[0].roots[0];
        for words in [4095, 4096, 9000] {
            for rows in [0, 1, 63, 64, 65, 5000] {
                let found = compare::table(&case.sheet, &case.trace, node, [0; 3], words, rows);
                assert_eq!(found.err(), (words < 4096 || rows < 64).then_some(15));
            }
        }
    }
}

#[test]
fn output() {
    for case in all() {
        for out in [0, 1, 9, 8191, 8192, 8193, 65_536, 1 << 20] {
            let found = compare::translate(&case.sheet, out);
            assert_eq!(found.err(), (out < 8192).then_some(14), "{}, {out} bytes", case.what);
        }
    }
}

/// The same answer again in the words that the first one left, and from several threads at once.
#[test]
fn again() {
    let cases = all();
    let mut words = vec![u64::MAX; 4096];
    std::thread::scope(|scope| {
        for _ in 0..4 {
            scope.spawn(|| {
                for case in &cases {
                    compare::check(&case.sheet, &case.trace, 4096).unwrap();
                    compare::translate(&case.sheet, 8192).ok().unwrap();
                    Boards::open(&case.sheet).unwrap().feed(0, 4096).unwrap();
                }
            });
        }
    });
    for case in &cases {
        let first = fasunqir::bytes::check_with(&case.sheet, &case.trace, &mut words);
        let second = fasunqir::bytes::check_with(&case.sheet, &case.trace, &mut words);
        assert_eq!(first, second, "{}", case.what);
        assert_eq!(fasunqir::bytes::check(&case.sheet, &case.trace), first, "{}", case.what);
        let formula = fasunqir::bytes::translate(&case.sheet).unwrap();
        assert_eq!(fasunqir::bytes::translate(&case.sheet).unwrap(), formula, "{}", case.what);
        // What the translator wrote is of kind 2, which no operation takes.
        assert_eq!(fasunqir::bytes::check(&formula, &case.trace).unwrap_err().number(), 3);
        assert_eq!(fasunqir::bytes::translate(&formula).unwrap_err().number(), 3);
    }
}
