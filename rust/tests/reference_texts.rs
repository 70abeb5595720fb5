//! The reference's reader of typed sheets: on texts with a known answer, on random ones whose sheet
//! is known, and beside the plain reader of the benchmark, which shares no code with it. Needs no
//! archive.

mod build;
mod cases;
mod generate;
#[path = "../benches/plain/mod.rs"]
mod plain;
mod reference;

use generate::text::{damaged, typed, Flaw, TextShape};
use generate::Random;
use reference::text::read_text;

/// The plain reader's answer.
fn plainly(text: &[u8], output: usize) -> Result<Vec<u8>, u8> {
    let mut out = vec![0; output];
    plain::text::read_text(text, &mut out).map(|length| out[..length].to_vec())
}

#[test]
fn known_answers() {
    let cases = cases::texts::cases();
    for case in &cases {
        let (text, found) = (String::from_utf8_lossy(&case.text), read_text(&case.text, 8192));
        assert_eq!(found, case.expected, "{text}");
        // Too few lent bytes are told last.
        assert_eq!(read_text(&case.text, 8191), case.expected.clone().and(Err(14)), "{text}");
        for output in [8191, 8192] {
            assert_eq!(plainly(&case.text, output), read_text(&case.text, output), "plain: {text}");
        }
    }
    println!("{} texts", cases.len());
}

#[test]
fn random_texts() {
    let mut random = Random::new(71);
    for case in 0..4000 {
        let flaws = [Flaw::Nothing, Flaw::Counts, Flaw::Fields, Flaw::Masks, Flaw::Nesting(33)];
        let shape = TextShape {
            signals: random.between(1, 16),
            names: random.below(4),
            nodes: random.between(1, if case % 8 == 0 { 70 } else { 20 }),
            clauses: random.between(1, if case % 8 == 1 { 9 } else { 4 }),
            flaw: random.pick(&flaws),
        };
        let typed = typed(&mut random, shape);
        let text = String::from_utf8_lossy(&typed.text);
        assert_eq!(read_text(&typed.text, 8192), typed.answer(8192), "{text}");
        assert_eq!(plainly(&typed.text, 8192), typed.answer(8192), "plain: {text}");
        for _ in 0..3 {
            let damaged = damaged(&mut random, &typed.text);
            let text = String::from_utf8_lossy(&damaged);
            assert_eq!(plainly(&damaged, 8192), read_text(&damaged, 8192), "plain: {text}");
        }
    }
}
