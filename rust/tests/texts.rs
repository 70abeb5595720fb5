//! Typed sheets, the library's reader beside the reference's: texts with a known answer, random
//! ones, damaged ones, and all that are a byte away from a few.

mod build;
mod cases;
mod compare;
mod generate;
mod reference;

use compare::TextTally;
use generate::text::{damaged, typed, Flaw, TextShape, Typed, WORDS};
use generate::Random;

#[test]
fn known_answers() {
    let mut tally = TextTally::default();
    for case in cases::texts::cases() {
        let found = compare::read_text(&case.text, 8192);
        assert_eq!(found, case.expected, "{}", String::from_utf8_lossy(&case.text));
        tally.count(&found);
    }
    tally.demand("texts with a known answer", [150, 15, 500, 10, 15, 15, 10, 0]);
}

/// What is lent: too little is told last, and much is left as it was.
#[test]
fn lent_bytes() {
    let cases = cases::texts::cases();
    let good = cases.iter().filter(|case| case.expected.is_ok());
    let bad = cases.iter().filter(|case| case.expected.is_err());
    for case in good.step_by(9).chain(bad.step_by(25)) {
        for out in [0, 1, 9, 100, 8191, 8192, 8193, 65_536, 1 << 20] {
            let expected =
                if out < 8192 { case.expected.clone().and(Err(14)) } else { case.expected.clone() };
            assert_eq!(compare::read_text(&case.text, out), expected, "{out} bytes");
        }
    }
}

fn lent(random: &mut Random) -> usize {
    random.pick(&[8192, 8192, 8192, 8192, 8192, 8193, 9000, 8191, 0])
}

/// An undamaged text, whose answer is known from how it was made.
fn undamaged(random: &mut Random, tally: &mut TextTally, shape: TextShape) -> Typed {
    let typed = typed(random, shape);
    let out = lent(random);
    let found = compare::read_text(&typed.text, out);
    assert_eq!(found, typed.answer(out), "{}", String::from_utf8_lossy(&typed.text));
    tally.count(&found);
    typed
}

/// Counts of texts by how many of something they have, near a limit.
struct Near {
    what: &'static str,
    from: usize,
    counts: Vec<usize>,
}

impl Near {
    fn new(what: &'static str, range: std::ops::RangeInclusive<usize>) -> Self {
        Near { what, from: *range.start(), counts: vec![0; range.count()] }
    }

    fn count(&mut self, number: usize) {
        if let Some(count) = number.checked_sub(self.from).and_then(|k| self.counts.get_mut(k)) {
            *count += 1;
        }
    }

    fn demand(&self, least: usize) {
        let Near { what, from, counts } = self;
        compare::report(format!("{what} from {from} up: {counts:?}"));
        let enough = counts.iter().all(|&count| count >= least);
        assert!(enough, "{what} from {from} up: {counts:?}, and {least} at least of each");
    }
}

const FLAWS: [Flaw; 8] = [
    Flaw::Nothing,
    Flaw::Nothing,
    Flaw::Nothing,
    Flaw::Nothing,
    Flaw::Nothing,
    Flaw::Counts,
    Flaw::Fields,
    Flaw::Masks,
];

#[test]
fn small() {
    let (mut random, mut tally) = (Random::new(72), TextTally::default());
    for case in 0..12_000 {
        let shape = TextShape {
            signals: random.between(1, 16),
            names: random.below(4),
            nodes: random.between(1, 24),
            clauses: random.between(1, 4),
            flaw: FLAWS[case % 8],
        };
        undamaged(&mut random, &mut tally, shape);
    }
    tally.demand("small texts", [5000, 0, 0, 0, 1000, 600, 500, 1000]);
}

/// About 64 nodes, and up to nine clauses.
#[test]
fn large() {
    let (mut random, mut tally) = (Random::new(73), TextTally::default());
    let (mut nodes, mut clauses) = (Near::new("nodes", 60..=70), Near::new("clauses", 7..=9));
    for case in 0..3000 {
        let shape = TextShape {
            signals: random.pick(&[1, 8, 16]),
            names: random.between(1, 3),
            nodes: random.pick(&[40, 60, 61, 62, 63, 64, 64, 65, 66, 67, 68, 69, 70]),
            clauses: random.pick(&[1, 2, 4, 7, 8, 8, 9]),
            flaw: FLAWS[case % 8],
        };
        let typed = undamaged(&mut random, &mut tally, shape);
        nodes.count(typed.sheet.nodes.len());
        clauses.count(typed.sheet.clauses.len());
    }
    tally.demand("large texts", [600, 0, 0, 1200, 120, 120, 120, 150]);
    nodes.demand(180);
    clauses.demand(350);
}

/// About 32 brackets open at once.
#[test]
fn deep() {
    let (mut random, mut tally) = (Random::new(74), TextTally::default());
    let mut open = Near::new("open brackets", 31..=33);
    for _ in 0..4000 {
        let shape = TextShape {
            signals: random.between(1, 4),
            names: random.below(4),
            nodes: random.between(4, 70),
            clauses: random.between(1, 3),
            flaw: Flaw::Nesting(random.between(29, 33)),
        };
        open.count(undamaged(&mut random, &mut tally, shape).open);
    }
    tally.demand("deep texts", [1000, 1500, 0, 100, 0, 0, 0, 300]);
    open.demand(500);
}

#[test]
fn damaged_texts() {
    let (mut random, mut tally) = (Random::new(75), TextTally::default());
    for case in 0..30_000 {
        let shape = TextShape {
            signals: random.between(1, 16),
            names: random.below(4),
            nodes: random.between(1, if case % 10 == 0 { 66 } else { 14 }),
            clauses: random.between(1, if case % 10 == 1 { 9 } else { 3 }),
            flaw: FLAWS[case % 8],
        };
        let text = typed(&mut random, shape).text;
        let text = damaged(&mut random, &text);
        tally.count(&compare::read_text(&text, lent(&mut random)));
    }
    tally.demand("damaged texts", [2500, 400, 15_000, 60, 600, 300, 400, 600]);
}

/// Texts a byte away from these: each byte set to every value, dropped, doubled, exchanged with the
/// next, after a blank, and the last.
#[test]
fn every_byte() {
    let texts = [
        "16 3\nrequire anti(<s15>:)\n",
        "2 2\nassume pref((slen<=5)*|[[!u0]]&{{s1}}:u1 u0)\n",
        "1\t3\nrequire implies(at(u0)^draw(4,s0): u0,scount( (s0|true) )>=07:)\n",
        "1 2\nrequireinit([false]:,gap(u0,u1,1,12):u1u0)\nassume anti(sdur(u0&!s0)>0:u0)\n",
    ];
    let mut tally = TextTally::default();
    for text in texts.map(str::as_bytes) {
        assert!(compare::read_text(text, 8192).is_ok());
        for at in 0..text.len() {
            let (before, after) = text.split_at(at);
            let mut near: Vec<Vec<u8>> =
                (0..=255).map(|value| [before, &[value], &after[1..]].concat()).collect();
            near.push([before, &after[1..]].concat());
            near.push([before, &after[..1], after].concat());
            near.push([before, b" ", after].concat());
            near.push([before, b"\t", after].concat());
            near.push(before.to_vec());
            if at > 0 {
                let mut exchanged = text.to_vec();
                exchanged.swap(at - 1, at);
                near.push(exchanged);
            }
            for text in near {
                tally.count(&compare::read_text(&text, 8192));
            }
        }
    }
    tally.demand("a byte away", [600, 0, 50_000, 0, 40, 50, 10, 0]);
}

/// Every string of a few words and signs in the place of a formula or a proposition: of up to four
/// of many, and of up to six of the few that make its form.
#[test]
fn every_short_string() {
    #[rustfmt::skip]
    let formula = [
        "<s0>", "slen=1", "s0", "slen", "1", "=", "<", ">", "(", ")", "|", "&", "^", "!", "*", "[",
        "]", ":", ",", " ",
    ];
    let proposition = ["s0", "u0", "true", "!", "(", ")", "|", "&", "^", "*", "1", "0", "s", " "];
    let mut tally = TextTally::default();
    let mut every = |words: &[&str], most: usize, open: &str, close: &str| {
        let mut strings = vec![String::new()];
        for _ in 0..=most {
            for string in &strings {
                let text = format!("1 1\nrequire anti({open}{string}{close}:u0)\n");
                tally.count(&compare::read_text(text.as_bytes(), 8192));
            }
            let longer = |string: &String| {
                words.iter().map(|word| format!("{string}{word}")).collect::<Vec<_>>()
            };
            strings = strings.iter().flat_map(longer).collect();
        }
    };
    every(&formula, 4, "", "");
    every(&["slen=1", "(", ")", "|", "&", "^", "*"], 6, "", "");
    every(&proposition, 4, "<", ">");
    every(&["s0", "(", ")", "|", "&", "!"], 6, "scount(", ")=1");
    tally.demand("short strings", [450, 0, 350_000, 0, 0, 20, 0, 0]);
}

/// Operands and joiners in turn, in brackets that mostly fit, with a stray word here and there.
fn string(random: &mut Random, operands: &[&str], joiners: &[&str], closing: &[&str]) -> String {
    let (mut string, mut open, mut operand) = (String::new(), 0, true);
    for _ in 0..random.between(1, 24) {
        if random.one_in(60) {
            string += random.pick(&WORDS);
        } else if operand && random.one_in(3) {
            string += "(";
            open += 1;
        } else if operand {
            string += random.pick(operands);
            operand = false;
        } else if open > 0 && random.one_in(3) {
            string += random.pick(closing);
            open -= 1;
        } else {
            string += random.pick(joiners);
            operand = true;
        }
    }
    if operand {
        string += random.pick(operands);
    }
    string + &")".repeat(open)
}

#[test]
fn strings_of_words() {
    let (mut random, mut tally) = (Random::new(76), TextTally::default());
    for _ in 0..8000 {
        let singles = ["s0", "s1", "u2", "true", "!s2", "! !u0", "false"];
        let p = string(&mut random, &singles, &["|", "&", " | ", "\t&"], &[")", ")", " )"]);
        let (at, count) = (format!("<{p}>"), format!("sdur({p})<=3"));
        let pieces = ["slen=1", "slen>0", "[s0]", "at(u1)", "draw(4,s1)", "gap(u0,u1,1,2)"];
        let pieces = [&pieces[..], &[&at, &count]].concat();
        let f = string(&mut random, &pieces, &["|", "&", "^", " ^ "], &[")", ")", ")*", ") *"]);
        let text = format!("3 3\nrequire anti({f}:u0u1u2)\n");
        tally.count(&compare::read_text(text.as_bytes(), 8192));
    }
    tally.demand("strings of words", [3000, 0, 1500, 10, 0, 0, 0, 0]);
}

/// Texts that are long though they say little. The reference goes as deep as they do.
#[test]
fn long() {
    let run = || {
        let in_anti = |part: &str| format!("1 0\nrequire anti({part})\n");
        let (blanks, zeros) = (" \t".repeat(40_000), "0".repeat(80_000));
        let read = |text: &str| compare::read_text(text.as_bytes(), 8192).map(|_| ());
        assert_eq!(read(&in_anti(&format!("slen{blanks}={blanks}1{blanks}:"))), Ok(()));
        assert_eq!(read(&format!("{zeros}1{blanks}{zeros}\nrequire anti(slen=1:)\n")), Ok(()));
        assert_eq!(read(&in_anti(&format!("slen={zeros}65535:"))), Ok(()));
        assert_eq!(read(&in_anti(&format!("slen={zeros}65536:"))), Err(19));
        assert_eq!(read(&in_anti(&format!("slen={}:", "9".repeat(80_000)))), Err(19));
        assert_eq!(read(&in_anti(&format!("<{}s0>:", "!".repeat(5000)))), Err(20));
        assert_eq!(read(&in_anti(&format!("<{}>:", "!".repeat(5000)))), Err(19));
        assert_eq!(read(&in_anti(&format!("{}:", ["slen=1"; 150].join("^")))), Err(20));
        assert_eq!(read(&in_anti(&format!("{}:", ["[s0&s0]"; 100].join("|")))), Err(20));
        assert_eq!(read(&format!("1 0\n{}", "require anti(slen=1:)\n".repeat(3000))), Err(20));
        assert_eq!(read(&format!("1 0\n{}\n", "require anti(slen=1:)\n".repeat(3000))), Err(19));
        assert_eq!(read(&"(".repeat(80_000)), Err(18));
        assert_eq!(read(&")".repeat(80_000)), Err(19));
        assert_eq!(read(&"\n".repeat(80_000)), Err(19));
        assert_eq!(read(&blanks), Err(19));
    };
    std::thread::Builder::new().stack_size(1 << 28).spawn(run).unwrap().join().unwrap();
}

/// Reads again what a failure printed: FASUNQIR_TEXT in hexadecimal.
#[test]
#[ignore]
fn replay() {
    let text = build::from_hex(&std::env::var("FASUNQIR_TEXT").unwrap_or_default());
    compare::report(format!("read {:?}", compare::read_text(&text, 8192)));
}
