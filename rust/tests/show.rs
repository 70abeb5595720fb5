//! What `show` prints, by the library and by the command: sheets as text that is read to the same
//! bytes or has the same meaning, traces as minutes, formulas in a notation that says what they are.

mod build;
mod command;
mod generate;
mod notation;
mod reference;

use command::{run, run_with, Scratch};
use fasunqir::{bytes, Formula, Role, Sheet, Trace};
use generate::text::{typed, Flaw, TextShape};
use generate::{Draw, Random, Shape, DRAWS};
use notation::Trees;
use std::time::{Duration, Instant};

/// The sheets of the examples, typed.
fn examples() -> Vec<(String, String)> {
    let mut examples = vec![];
    for entry in std::fs::read_dir(command::root().join("examples")).unwrap() {
        let path = entry.unwrap().path().join("sheet.txt");
        if let Ok(text) = std::fs::read_to_string(&path) {
            examples.push((path.to_str().unwrap().to_string(), text));
        }
    }
    assert!(examples.len() >= 6, "{} examples", examples.len());
    examples
}

/// A typed sheet with no flaw.
fn random_text(random: &mut Random) -> Vec<u8> {
    let shape = TextShape {
        signals: random.between(1, 16),
        names: random.below(4),
        nodes: random.pick(&[1, 5, 12, 30, 64]),
        clauses: random.between(1, 8),
        flaw: Flaw::Nothing,
    };
    typed(random, shape).text
}

/// A stored sheet, whose nodes may be shared or unreached and whose clauses may be advice.
fn random_stored(random: &mut Random) -> Sheet {
    let shape = Shape {
        signals: random.between(1, 4),
        names: random.below(3),
        nodes: random.pick(&[2, 6, 12, 24, 64]),
        clauses: random.between(1, 4),
        numbers: 5,
    };
    let draw: Draw = random.pick(&DRAWS);
    let mut drawn = draw(random, shape);
    if random.one_in(2) {
        drawn = generate::in_any_role(random, &drawn);
    }
    Sheet::try_from(drawn.bytes()).unwrap()
}

fn random_trace(random: &mut Random, signals: usize) -> Trace {
    let cycles = random.between(1, 24);
    let drawn = if random.one_in(2) {
        generate::trace(random, signals, cycles)
    } else {
        generate::events(random, signals, cycles)
    };
    Trace::try_from(drawn.bytes()).unwrap()
}

/// The clauses of a sheet that are advice, as --advice takes them.
fn advice(sheet: &Sheet) -> Vec<usize> {
    let clauses = sheet.clauses();
    (0..clauses.len()).filter(|&k| clauses[k].role == Role::Advice).collect()
}

/// 64 nodes, each after the first two the and of the last with itself.
fn doubled() -> Sheet {
    let mut sheet = build::Sheet::new(1, 0);
    let signal = sheet.signal(0);
    let mut root = sheet.point(signal);
    while sheet.nodes.len() < 64 {
        root = sheet.both(root, root);
    }
    sheet.anti(build::Role::Commitment, build::Part(root, 0));
    Sheet::try_from(sheet.bytes()).unwrap()
}

#[test]
fn examples_are_shown_as_they_are_typed() {
    for (path, text) in examples() {
        let sheet: Sheet = text.parse().unwrap();
        assert_eq!(sheet.to_string(), text);
        assert_eq!(sheet.text(), Some(text.clone()));
        let lines: Vec<String> = (0..sheet.clauses().len()).map(|k| sheet.clause_line(k)).collect();
        assert_eq!(lines, text.lines().skip(1).collect::<Vec<_>>());
        let ran = run(&["show", &path]);
        assert_eq!((ran.status, ran.out, ran.err), (0, text.clone(), String::new()));
        let ran = run(&["show", &path.replace("sheet.txt", "sheet.hex")]);
        assert_eq!((ran.status, ran.out, ran.err), (0, text.clone(), String::new()));
        let ran = run_with(&["show", "-"], sheet.as_bytes());
        assert_eq!((ran.status, ran.out, ran.err), (0, text, String::new()));
    }
}

#[test]
fn typed_sheets_are_read_again_to_the_same_bytes() {
    let mut random = Random::new(801);
    for _ in 0..6000 {
        let typed = random_text(&mut random);
        let Ok(stored) = bytes::read_text(&typed) else { continue };
        let sheet = Sheet::try_from(stored).unwrap();
        let text = sheet.text().unwrap();
        assert_eq!(text, sheet.to_string());
        assert_eq!(text.parse(), Ok(sheet), "{text}");
    }
}

/// Brackets that belong to no word and no star, each with its partner.
fn plain_brackets(text: &str) -> Vec<(usize, usize)> {
    let (mut open, mut pairs) = (vec![], vec![]);
    let bytes = text.as_bytes();
    for (k, &byte) in bytes.iter().enumerate() {
        match byte {
            b'(' => open.push(k),
            b')' => {
                let from = open.pop().unwrap();
                let starred = bytes.get(k + 1) == Some(&b'*');
                if !starred && !bytes[from - 1].is_ascii_alphabetic() {
                    pairs.push((from, k));
                }
            }
            _ => {}
        }
    }
    pairs
}

#[test]
fn no_bracket_is_needless() {
    let mut random = Random::new(802);
    let mut brackets = 0;
    for _ in 0..1500 {
        let Ok(stored) = bytes::read_text(&random_text(&mut random)) else { continue };
        let text = Sheet::try_from(&stored[..]).unwrap().to_string();
        for (from, to) in plain_brackets(&text) {
            let mut without = text.clone();
            without.remove(to);
            without.remove(from);
            assert_ne!(bytes::read_text(without.as_bytes()), Ok(stored.clone()), "{text}");
            brackets += 1;
        }
    }
    assert!(brackets > 1000, "{brackets} brackets");
}

#[test]
fn texts_of_stored_sheets_have_their_meaning() {
    let mut random = Random::new(803);
    let (mut same, mut other, mut unreached, mut advised, mut unread) = (0, 0, 0, 0, [0; 2]);
    for _ in 0..6000 {
        let sheet = random_stored(&mut random);
        unreached += usize::from(sheet.unreached() > 0);
        let Some(text) = sheet.text() else { continue };
        let mut read = match text.parse::<Sheet>() {
            Ok(read) => read,
            Err(error) => {
                match error.number() {
                    18 => unread[0] += 1,
                    20 => unread[1] += 1,
                    number => panic!("refused by {number}: {text}"),
                }
                assert!(error.number() == 18 || sheet.typed_nodes() > 64);
                continue;
            }
        };
        assert_eq!(read.nodes().len(), sheet.typed_nodes());
        assert_eq!(read.unreached(), 0);
        advised += usize::from(!advice(&sheet).is_empty());
        for k in advice(&sheet) {
            assert!(text.lines().nth(k + 1).unwrap().starts_with("require "));
            read = read.with_role(k, Role::Advice);
        }
        if read == sheet {
            same += 1;
            continue;
        }
        other += 1;
        for _ in 0..4 {
            let trace = random_trace(&mut random, sheet.signals());
            assert_eq!(read.check(&trace), sheet.check(&trace), "{text}");
        }
    }
    let counts = [same, other, unreached, advised, unread[1]];
    assert!(counts.iter().all(|&count| count > 100), "{counts:?}");
}

#[test]
fn a_text_with_too_many_brackets_is_said_to_be_unreadable() {
    let mut sheet = build::Sheet::new(1, 0);
    let mut root = sheet.symbol(build::Symbol::High, 0);
    for _ in 0..33 {
        root = sheet.star(root);
    }
    sheet.anti(build::Role::Commitment, build::Part(root, 0));
    let ran = run_with(&["show", "-"], &sheet.bytes());
    assert_eq!(ran.status, 0);
    assert_eq!(ran.out.matches(")*").count(), 33);
    assert_eq!(
        ran.err,
        "fasunqir show: the text can't be read back: over 32 round brackets are open at a place\n"
    );
}

#[test]
fn what_a_text_cannot_say_is_said_beside_it() {
    let mut sheet = build::Sheet::new(2, 0);
    let signal = sheet.signal(1);
    let point = sheet.point(signal);
    sheet.truth();
    sheet.anti(build::Role::Advice, build::Part(point, 0));
    sheet.implies(build::Role::Commitment, build::Part(point, 0), build::Part(point, 0));
    sheet.pref(build::Role::Advice, build::Part(point, 0));
    let ran = run_with(&["show", "-"], &sheet.bytes());
    assert_eq!(
        ran.out,
        "2 0\nrequire anti(<s1>:)\nrequire implies(<s1>:, <s1>:)\nrequire pref(<s1>:)\n"
    );
    assert_eq!(
        ran.err,
        "fasunqir show: clauses 0 and 2 are advice, which a text has no word for; with this text \
         --advice 0,2 makes them so\n\
         fasunqir show: stored again the text has other bytes, of the same meaning: each node once \
         for each time that it is typed, in the order of the text\n\
         fasunqir show: 1 node that no clause reaches is not shown\n"
    );
    // The text with the advice that was told is a sheet with the same verdicts.
    let scratch = Scratch::new("show-advice");
    let text = scratch.file("sheet.txt", &ran.out);
    let stored = run(&["store", "--advice", "0,2", &text]);
    let stored = Sheet::try_from(stored.bytes).unwrap();
    let sheet = Sheet::try_from(sheet.bytes()).unwrap();
    for minutes in ["-", "s1", "-\ns1\n-"] {
        let trace = minutes.parse::<Trace>().unwrap().with_signals(2).unwrap();
        assert_eq!(stored.check(&trace), sheet.check(&trace));
    }
    // Advice by option is told as well.
    let ran = run(&["show", "--advice", "1", "examples/reply/sheet.txt"]);
    assert!(ran.err.contains("clause 1 is advice"), "{}", ran.err);
    assert!(ran.err.contains("--advice 1 makes it so"), "{}", ran.err);
    assert_eq!(ran.status, 0);
}

#[test]
fn a_sheet_that_doubles_ends_at_once() {
    let sheet = doubled();
    let begun = Instant::now();
    assert_eq!(sheet.text(), None);
    assert_eq!(sheet.typed_nodes(), 2 * (1 << 62) + (1 << 62) - 1);
    let text = sheet.to_string();
    assert!(text.starts_with("1 0\nlet f1 = <s0> & <s0>\nlet f2 = f1 & f1\n"), "{text}");
    assert!(text.ends_with("let f61 = f60 & f60\nrequire anti(f61 & f61:)\n"), "{text}");
    assert_eq!(sheet.clause_line(0), "require anti(f61 & f61:)");
    let ran = run_with(&["show", "-"], sheet.as_bytes());
    assert_eq!((ran.status, ran.out), (0, text));
    assert!(ran.err.contains("more than 65536 bytes"), "{}", ran.err);
    let formula = run_with(&["formula", "-"], sheet.as_bytes()).bytes;
    let ran = run_with(&["show", "-"], &formula);
    assert_eq!((ran.status, ran.out), (0, sheet.formula().to_string()));
    assert!(begun.elapsed() < Duration::from_secs(10), "{:?}", begun.elapsed());
}

#[test]
fn minutes_are_read_again_to_the_same_trace() {
    let mut random = Random::new(804);
    for k in 0..300 {
        let signals = random.between(1, 16);
        let trace = random_trace(&mut random, signals);
        let text = trace.to_string();
        let read: Trace = text.parse().unwrap();
        assert_eq!(read.with_signals(signals).as_ref(), Ok(&trace));
        if k % 10 > 0 {
            continue;
        }
        let ran = run_with(&["show", "-"], trace.as_bytes());
        assert_eq!((ran.status, &ran.out), (0, &text));
        assert_eq!(ran.err.contains(&format!("-s {signals} makes it so")), read != trace);
        let stored = run_with(&["store", "-s", &signals.to_string(), "-"], text.as_bytes());
        assert_eq!(stored.bytes, trace.as_bytes());
        let again = run_with(&["show", "-s", &signals.to_string(), "-"], text.as_bytes());
        assert_eq!((again.status, again.out), (0, text));
    }
}

/// Breaks of lines and blanks aside.
fn blanks_aside(text: &str) -> String {
    text.split_whitespace().collect::<Vec<_>>().join(" ")
}

/// What is printed of a formula is that formula, in both notations.
fn formula_is_shown(formula: &Formula) {
    let plain = formula.notation(true);
    assert!(plain.is_ascii() && plain.ends_with('\n'));
    let mut trees = Trees::default();
    let read = notation::read(&plain, &mut trees).unwrap_or_else(|why| panic!("{why}\n{plain}"));
    assert_eq!(read.tree, trees.of_nodes(&formula.nodes()), "{plain}");
    assert!(read.uses.iter().all(|(_, uses)| *uses >= 2), "{plain}");
    let signed = formula.to_string();
    let mut spelt = signed.clone();
    let signs = [("⟨", "<"), ("⟩", ">"), ("∧", "&"), ("∨", "|"), ("¬", "!"), ("∃", "ex ")];
    for (sign, word) in signs.into_iter().chain([("≤", "<="), ("≥", ">=")]) {
        spelt = spelt.replace(sign, word);
    }
    assert_eq!(blanks_aside(&spelt), blanks_aside(&plain));
    lines_are_short(&plain, ["&", "|"]);
    lines_are_short(&signed, ["∧", "∨"]);
}

/// A line of more than 100 characters has no joiner where it could be broken.
fn lines_are_short(text: &str, joiners: [&str; 2]) {
    for line in text.lines().filter(|line| line.chars().count() > 100) {
        let line = line.trim_start();
        let line = line.split_once(" = ").filter(|_| line.starts_with("let")).map_or(line, |l| l.1);
        let line = line.split_once(' ').filter(|l| l.0.chars().count() == 1).map_or(line, |l| l.1);
        for joiner in joiners.into_iter().chain(["^"]) {
            assert!(!line.contains(&format!(" {joiner} ")), "{line}");
        }
    }
}

#[test]
fn formulas_of_sheets_are_what_is_printed() {
    let mut random = Random::new(805);
    for (_, text) in examples() {
        formula_is_shown(&text.parse::<Sheet>().unwrap().formula());
    }
    for _ in 0..1500 {
        formula_is_shown(&random_stored(&mut random).formula());
        if let Ok(stored) = bytes::read_text(&random_text(&mut random)) {
            formula_is_shown(&Sheet::try_from(stored).unwrap().formula());
        }
    }
}

/// A formula of random nodes, as no translation has to make them.
fn random_formula(random: &mut Random) -> Formula {
    let (signals, names) = (random.between(1, 16), random.below(4));
    let mut sheet = build::Sheet::new(signals as u8, names as u8);
    sheet.kind = 2;
    let mut propositions = vec![sheet.signal(0).0];
    let mut formulas = vec![sheet.slen(build::Compare::Equal, 0).0];
    let last = |random: &mut Random, from: &[u16]| {
        let back = random.below(from.len()).min(random.below(from.len()));
        from[from.len() - 1 - back]
    };
    for _ in 0..random.pick(&[1, 4, 12, 40, 150]) {
        let (p, q) = (last(random, &propositions), last(random, &propositions));
        let (f, g) = (last(random, &formulas), last(random, &formulas));
        let (compared, number) = (random.below(5) as u8, random.pick(&[0, 1, 7, 300, 65_535]));
        let op = random.pick(&[
            1, 2, 3, 4, 5, 5, 6, 7, 16, 17, 18, 19, 20, 20, 21, 22, 23, 24, 25, 26, 30, 30, 31,
        ]);
        let signal = random.below(signals) as u16;
        let name = random.below(names.max(1)) as u16;
        let (q, a, b) = match op {
            1 | 2 => (0, 0, 0),
            3 => (0, signal, 0),
            4 | 31 if names == 0 => continue,
            4 => (0, name, 0),
            5 | 16..=19 => (0, p, 0),
            6 | 7 => (0, p, q),
            20..=22 => (0, f, g),
            23 | 30 => (0, f, 0),
            24 => (compared, 0, number),
            25 | 26 => (compared, p, number),
            _ => (0, f, name),
        };
        let made = sheet.node(op, q, a, b).0;
        if op < 16 { &mut propositions } else { &mut formulas }.push(made);
    }
    let root = last(random, &formulas);
    sheet.negation(build::Node(root));
    Formula::try_from(sheet.bytes()).unwrap()
}

#[test]
fn any_formulas_are_what_is_printed() {
    let mut random = Random::new(806);
    let mut unreached = 0;
    for _ in 0..3000 {
        let formula = random_formula(&mut random);
        unreached += usize::from(formula.unreached() > 0);
        formula_is_shown(&formula);
    }
    assert!(unreached > 300, "{unreached}");
}

/// As deep as a stored formula can be.
#[test]
fn deep_formulas_end() {
    for op in [5, 20, 21, 23, 30, 31] {
        let mut sheet = build::Sheet::new(1, 1);
        sheet.kind = 2;
        let signal = sheet.signal(0);
        let mut root = if op == 5 { signal } else { sheet.point(signal) };
        let leaf = root;
        while sheet.nodes.len() < 10_920 {
            let (a, b) = if op < 23 && op > 19 { (leaf.0, root.0) } else { (root.0, 0) };
            root = sheet.node(op, 0, a, b);
        }
        sheet.node(if op == 5 { 18 } else { 30 }, 0, root.0, 0);
        let formula = Formula::try_from(sheet.bytes()).unwrap();
        for ascii in [true, false] {
            assert!(formula.notation(ascii).len() < 1_500_000);
        }
    }
}

#[test]
fn formulas_of_examples_to_the_letter() {
    let sheet: Sheet = "1 0\nrequire anti(<s0>:)\n".parse().unwrap();
    let formula = run_with(&["formula", "-"], sheet.as_bytes()).bytes;
    assert_eq!(formula, sheet.formula().as_bytes());
    let ran = run_with(&["show", "-"], &formula);
    assert_eq!(ran.status, 0);
    assert_eq!(ran.out, "slen < 0 ∨ ¬(slen < 0 ∨ slen ≥ 0 ^ (⟨s0⟩ ^ slen ≥ 0))\n");
    assert_eq!(ran.err, "");
    let ran = run_with(&["show", "-", "--ascii"], &formula);
    assert_eq!(ran.out, "slen < 0 | !(slen < 0 | slen >= 0 ^ (<s0> ^ slen >= 0))\n");

    // In hexadecimal, with comments, as well.
    let hexadecimal = format!("# a formula\n{}\n", build::hex(&formula));
    let ran = run_with(&["show", "-", "--ascii"], hexadecimal.as_bytes());
    assert_eq!(ran.out, "slen < 0 | !(slen < 0 | slen >= 0 ^ (<s0> ^ slen >= 0))\n");

    let before = run(&["formula", "examples/before/sheet.txt"]).bytes;
    let ran = run_with(&["show", "-"], &before);
    assert_eq!((ran.status, ran.err.as_str()), (0, ""));
    assert_eq!(
        ran.out,
        "\
slen < 0
    ∨ ¬(slen < 0
        ∨ slen ≥ 0
            ^ ∃u0. (scount u0 = 1
                ∧ ((scount u0 = 1 ∧ ⟨s0⟩ ^ (slen = 0 ∧ ⟨u0⟩ ∧ ⟨s1⟩)) ^ slen ≥ 0
                    ∧ (slen = 4 ∧ ¬(slen = 4 ^ slen > 0) ∧ ¬(([[¬u0]] ∧ scount s2 ≥ 1) ^ slen ≥ 0))
                        ^ slen ≥ 0)))
"
    );
}

#[test]
fn shared_nodes_have_names() {
    let mut sheet = build::Sheet::new(2, 1);
    sheet.kind = 2;
    let (s0, s1) = (sheet.signal(0), sheet.signal(1));
    let either = sheet.or(s0, s1);
    let both = sheet.and(either, either);
    let stretch = sheet.stretch(both);
    let star = sheet.star(stretch);
    let chop = sheet.chop(star, star);
    let count = sheet.scount(either, build::Compare::AtLeast, 2);
    let not = sheet.negation(count);
    let point = sheet.point(s0);
    let twice = sheet.both(point, point);
    let all = sheet.either(chop, not);
    let some = sheet.some(0, all);
    sheet.both(some, twice);
    let formula = Formula::try_from(sheet.bytes()).unwrap();
    assert_eq!(
        formula.to_string(),
        "let p1 = s0 ∨ s1\n\
         let f1 = ([p1 ∧ p1])*\n\
         ∃u0. (f1 ^ f1 ∨ ¬(scount p1 ≥ 2)) ∧ (⟨s0⟩ ∧ ⟨s0⟩)\n"
    );
    assert_eq!(
        formula.notation(true),
        "let p1 = s0 | s1\n\
         let f1 = ([p1 & p1])*\n\
         ex u0. (f1 ^ f1 | !(scount p1 >= 2)) & (<s0> & <s0>)\n"
    );
}

#[test]
fn damaged_formulas_are_told_in_words() {
    let mut random = Random::new(807);
    let mut told = 0;
    for k in 0..20_000 {
        let formula = if k % 2 == 0 {
            random_stored(&mut random).formula()
        } else {
            random_formula(&mut random)
        };
        let damaged = generate::damaged(&mut random, formula.as_bytes());
        let read = Formula::try_from(&damaged[..]);
        match &read {
            Ok(read) => formula_is_shown(read),
            Err(error) => {
                told += 1;
                assert!(error.to_string().len() > 10, "{error}");
            }
        }
        if k % 200 > 0 {
            continue;
        }
        let ran = run_with(&["show", "-"], &damaged);
        match read {
            Ok(read) => assert_eq!((ran.status, ran.out), (0, read.to_string())),
            Err(_) if ran.status == 0 => assert!(Trace::try_from(damaged).is_ok()),
            Err(_) => {
                assert_eq!((ran.status, ran.out.as_str()), (2, ""));
                assert!(ran.err.starts_with("fasunqir show: "), "{}", ran.err);
            }
        }
    }
    assert!(told > 10_000, "{told}");
}

/// The words for each thing that can be wrong with a formula.
#[test]
fn faults_of_formulas() {
    let sheet: Sheet = "3 1\nrequire anti(<s0 & u0> | sdur(s1) < 2: u0)\n".parse().unwrap();
    let good = sheet.formula().as_bytes().to_vec();
    let node = |op: u8| 9 + 6 * sheet.formula().nodes().iter().position(|n| n.op == op).unwrap();
    let told = |changes: &[(usize, u8)]| {
        let mut bytes = good.clone();
        changes.iter().for_each(|&(at, byte)| bytes[at] = byte);
        let error = Formula::try_from(bytes.clone()).unwrap_err().to_string();
        let ran = run_with(&["show", "-"], &bytes);
        assert_eq!((ran.status, ran.out.as_str()), (2, ""));
        if bytes[3] == 2 {
            let words = "fasunqir show: standard input: it is no stored formula: ";
            assert_eq!(ran.err, format!("{words}{error}\n"));
        }
        error
    };
    let number = |at: usize| (at - 9) / 6;
    assert_eq!(told(&[(2, 7)]), "its version is 7, not 1");
    assert_eq!(told(&[(3, 1)]), "its kind is 1, and a formula is of kind 2");
    assert_eq!(told(&[(4, 17)]), "it has 17 signals, not 1 to 16");
    assert_eq!(told(&[(5, 4)]), "it has 4 names, not 0 to 3");
    assert_eq!(told(&[(8, 2)]), "byte 8 says 2 clauses, and a formula has none");
    assert_eq!(told(&[(6, 0), (7, 0)]), "it has no nodes");
    let length = good.len();
    let follow = format!("bytes 0–1 say that 0 bytes follow them, and {} do", length - 2);
    assert_eq!(told(&[(0, 0), (1, 0)]), follow);
    let fewer = format!("its 1 nodes make 15 bytes, and it has {length}");
    assert_eq!(told(&[(6, 0), (7, 1)]), fewer);

    let (signal, name, point, dur) = (node(3), node(4), node(16), node(26));
    let at = |at: usize, words: &str| format!("node {}: {words}", number(at));
    assert_eq!(told(&[(signal, 27)]), at(signal, "op 27 is none of a formula's"));
    assert_eq!(told(&[(signal, 0)]), at(signal, "op 0 is none of a formula's"));
    let out_of_range = at(signal, "a is 3, and the signals are 0 to 2");
    assert_eq!(told(&[(signal + 3, 3)]), out_of_range);
    let unused = at(signal, "b is 256, and op 3 doesn't use it");
    assert_eq!(told(&[(signal + 4, 1)]), unused);
    assert_eq!(told(&[(name + 3, 2)]), at(name, "a is 2, and the only name is 0"));
    assert_eq!(told(&[(dur + 1, 5)]), at(dur, "q is 5, and the comparisons are 0 to 4"));
    let itself = number(point);
    let later = at(point, &format!("a is {itself}, and an operand is an earlier node"));
    assert_eq!(told(&[(point + 3, itself as u8)]), later);
    let last = length - 6;
    assert_eq!(good[last], 22);
    let sort =
        format!("a is {0}, and op 22 needs a formula there, which node {0} is not", number(name));
    assert_eq!(told(&[(last + 2, 0), (last + 3, number(name) as u8)]), at(last, &sort));
    let root = [(last, 2), (last + 2, 0), (last + 3, 0), (last + 4, 0), (last + 5, 0)];
    assert_eq!(told(&root), "its last node, the root, is a proposition and no formula");

    let short = Formula::try_from(&good[..8]).unwrap_err();
    assert_eq!(short.to_string(), "it has 8 bytes, and a formula has 15 at least");
}

/// Sheets, traces and formulas are told apart, also traces whose byte 3 is that of the others.
#[test]
fn stored_bytes_are_told_apart() {
    let mut random = Random::new(808);
    for k in 0..3000 {
        let sheet = random_stored(&mut random);
        let signals = if k % 2 == 0 { random.between(1, 2) } else { random.between(1, 16) };
        let trace = random_trace(&mut random, signals);
        let formula = sheet.formula();
        for (k, bytes) in
            [sheet.as_bytes(), trace.as_bytes(), formula.as_bytes()].iter().enumerate()
        {
            assert_eq!(Sheet::try_from(*bytes).is_ok(), k == 0);
            assert_eq!(Trace::try_from(*bytes).is_ok(), k == 1);
            assert_eq!(Formula::try_from(*bytes).is_ok(), k == 2);
        }
    }
    let trace = Trace::from_cycles(2, &[0, 1, 2, 3]).unwrap();
    let ran = run_with(&["show", "-"], trace.as_bytes());
    assert_eq!((ran.status, ran.out.as_str()), (0, "-\ns0\ns1\ns0 s1\n"));
    let ran = run_with(&["show", "-"], b"# two minutes\ns0\n-\n");
    assert_eq!((ran.status, ran.out.as_str()), (0, "s0\n-\n"));
}

/// Refused bytes are refused as what they are most like.
#[test]
fn refused_bytes_are_taken_for_something() {
    let told = |bytes: &[u8]| {
        let ran = run_with(&["show", "-"], bytes);
        assert_eq!((ran.status, ran.out.as_str()), (2, ""));
        ran.err.strip_prefix("fasunqir show: ").unwrap().to_string()
    };
    let refused = |bytes: &[u8], number: usize| {
        let words = told(bytes);
        assert!(words.starts_with(&format!("{number}: ")), "{number}: {words}");
    };
    // Traces: none of their cycles, too many of them, half of one, and a bit too many.
    refused(&[0, 2, 1, 2], 13);
    refused(&build::Trace::new(2, &[1; 65]).bytes(), 13);
    refused(&[0, 5, 1, 2, 0, 1, 0], 13);
    refused(&build::Trace::new(1, &[0, 2]).bytes(), 13);
    refused(&build::Trace::new(9, &[0x0200]).bytes(), 13);
    refused(&build::Trace { version: 2, ..build::Trace::new(5, &[1, 2]) }.bytes(), 11);
    // Sheets: cut, of another version or kind, with counts out of range, with a bad node.
    let sheet: Sheet = "2 0\nrequire anti(<s0>:)\nrequire anti(<s1>:)\n".parse().unwrap();
    let changed = |at: usize, byte: u8| {
        let mut bytes = sheet.as_bytes().to_vec();
        bytes[at] = byte;
        bytes
    };
    refused(&[], 1);
    refused(&[0, 1, 1], 1);
    refused(&sheet.as_bytes()[..20], 1);
    refused(&changed(1, 0), 1);
    refused(&changed(2, 2), 2);
    refused(&changed(3, 0), 3);
    refused(&changed(3, 9), 3);
    refused(&changed(4, 0), 4);
    refused(&changed(5, 9), 4);
    refused(&changed(8, 1), 5);
    refused(&changed(9, 30), 6);
    // Formulas: no number, and words.
    let words = told(&changed(3, 2));
    assert!(words.contains("it is no stored formula: byte 8 says 2 clauses"), "{words}");
    // A trace and a formula have no clauses to be advice.
    for bytes in [&[0, 4, 1, 1, 0, 0], sheet.formula().as_bytes()] {
        let ran = run_with(&["show", "--advice", "0", "-"], bytes);
        assert_eq!((ran.status, ran.out.as_str()), (2, ""));
        assert!(ran.err.contains("--advice"), "{}", ran.err);
    }
}
