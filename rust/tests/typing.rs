//! What the command says of typing mistakes and of refused bytes, and what `--tidy` mends. The tables
//! have exact messages, from the command as a process; on random damage its modules are asked here.

mod build;
mod command;
mod generate;
mod mistakes;
mod reference;

#[allow(dead_code)]
#[path = "../src/bin/fasunqir/arguments.rs"]
mod arguments;
#[path = "../src/bin/fasunqir/typing.rs"]
mod diagnosis;
#[allow(dead_code)]
#[path = "../src/bin/fasunqir/grammar.rs"]
mod grammar;
#[path = "../src/bin/fasunqir/hints.rs"]
mod hints;
#[allow(dead_code)]
#[path = "../src/bin/fasunqir/output.rs"]
mod output;
#[allow(dead_code)]
#[path = "../src/bin/fasunqir/refused.rs"]
mod refused;
#[path = "../src/bin/fasunqir/tidy.rs"]
mod tidy;
use diagnosis as typing;

use command::{root, run, run_with, Scratch};
use fasunqir::{bytes, Sheet, Trace};
use generate::text::{damaged, typed, Flaw, TextShape};
use generate::{Random, Shape};

const TRACE: &str = "examples/reply/late.hex";

/// What the command says of a sheet, without who says it of what, and the line that it prints.
fn said(text: &[u8]) -> (String, String) {
    let ran = run_with(&["check", "-", TRACE], text);
    assert_eq!(ran.status, 2, "{}", String::from_utf8_lossy(text));
    (ran.err.replace("fasunqir check: standard input: ", ""), ran.out)
}

/// The number by which the library refuses a text of these lines.
fn refusal(lines: &[&[u8]]) -> Option<u8> {
    let text: Vec<u8> = lines.iter().flat_map(|line| line.iter().chain(b"\n")).copied().collect();
    bytes::read_text(&text).err().map(|error| error.number())
}

#[test]
fn mistyped_lines() {
    for (line, column, why) in mistakes::LINES {
        let caret = " ".repeat(column - 1);
        let expected = format!("line 2, column {column}: {why}\n    {line}\n    {caret}^\n");
        let (words, answer) = said(format!("3 2\n{line}\n").as_bytes());
        assert_eq!((words, answer.as_str()), (expected, "REFUSED 19\n"));
    }
    assert!(mistakes::LINES.len() > 60);
}

#[test]
fn mistyped_texts() {
    for (text, number, expected) in mistakes::TEXTS {
        let (words, answer) = said(text.as_bytes());
        let line = if *number == 0 { String::new() } else { format!("REFUSED {number}\n") };
        assert_eq!((words, answer), (expected.join("\n") + "\n", line), "{text}");
    }
}

/// What typing.rs says of bytes that are no characters, of control bytes, and of long lines.
#[test]
fn odd_bytes_and_long_lines() {
    let (words, _) = said(b"3 0\nrequire anti(<s0\xff>:)\n");
    let expected = "line 2, column 17: byte 255 (no character) stands here; expected '>' for the '<' \
                    in column 14, '&' or '|'\n    require anti(<s0\u{fffd}>:)\n                    ^\n";
    assert_eq!(words, expected);
    let (words, _) = said(b"3 0\nrequire anti(<s0>:)\x0c\x7f\n");
    let expected = "line 2, column 20: byte 12 stands here; expected the end of the line, as the \
                    clause is closed\n    require anti(<s0>:)\\u{c}\\u{7f}\n                       ^\n";
    assert_eq!(words, expected);

    let pieces = "<s0> | ".repeat(40);
    let (words, _) = said(format!("3 0\nrequire anti({pieces}s1 | {pieces}<s0>:)\n").as_bytes());
    let lines: Vec<&str> = words.lines().collect();
    let shown = lines[1].trim_start();
    assert!(shown.starts_with("...") && shown.ends_with("..."), "{words}");
    assert_eq!(shown.chars().count(), 126);
    assert_eq!(lines[1].find("s1"), lines[2].find('^'));

    // Long lines are fast, whatever they are made of.
    for unit in ["!", "(", "<s0>|", "s0 ", "\u{a0}", "[", "x", "require "] {
        let line = unit.repeat(200_000 / unit.len());
        said(format!("3 0\nrequire anti({line}\n").as_bytes());
        said(format!("3 0\n{line}\n").as_bytes());
    }
    for unit in ["\r", ">", "> ", "\n", ">\n", "\r \r", "\u{a0}", "\u{2013}\n"] {
        for tidied in [tidy::sheet, tidy::minutes] {
            tidied(unit.repeat(1_000_000 / unit.len()).as_bytes());
        }
    }
    let many = "require anti(<s0>:)\n".repeat(20_000);
    assert_eq!(said(format!("3 0\n{many}x\n").as_bytes()).1, "REFUSED 19\n");
}

/// `runs/typing/NAME.txt` is a mistyped sheet, `NAME.out` what the command answers, its status, and what
/// it says.
#[test]
fn runs() {
    let mut count = 0;
    for file in std::fs::read_dir(root().join("runs/typing")).unwrap() {
        let path = file.unwrap().path();
        if path.extension().is_some_and(|extension| extension == "txt") {
            let name = path.file_name().unwrap().to_str().unwrap();
            let ran = run(&["check", &format!("runs/typing/{name}"), TRACE]);
            let found = format!("{}status {}\n{}", ran.out, ran.status, ran.err);
            assert_eq!(
                found,
                std::fs::read_to_string(path.with_extension("out")).unwrap(),
                "{name}"
            );
            count += 1;
        }
    }
    assert!(count >= 30);
}

/// A stored sheet of two signals and one name: `require implies(at(u0) ^ <s0 & s1>: u0, slen < 3:)`. Its
/// nodes are 0 at, 1 and 2 signals, 3 and, 4 <a>, 5 chop, 6 slen; its clause begins at byte 51.
fn stored() -> Vec<u8> {
    bytes::read_text(b"2 1\nrequire implies(at(u0) ^ <s0 & s1>: u0, slen < 3:)\n").unwrap()
}

const CLAUSE: usize = 9 + 6 * 7;

fn node(number: usize) -> usize {
    9 + 6 * number
}

/// The stored sheet with some bytes changed.
fn changed(changes: &[(usize, u8)]) -> Vec<u8> {
    let mut sheet = stored();
    changes.iter().for_each(|&(at, byte)| sheet[at] = byte);
    sheet
}

/// What the command says of bytes as a sheet.
fn said_of_sheet(sheet: &[u8]) -> String {
    let scratch = Scratch::new("stored-sheet");
    let ran = run(&["check", &scratch.file("sheet", sheet), TRACE]);
    assert_eq!(ran.status, 2);
    let words = ran.err.strip_prefix("fasunqir check: ").unwrap().trim_end().to_string();
    assert_eq!(ran.out, format!("REFUSED {}\n", words.split(':').next().unwrap()));
    words
}

#[test]
fn refused_sheets() {
    assert_eq!(stored().len(), CLAUSE + 11);
    let mut utf16 = b"\xff\xfe".to_vec();
    utf16.extend("3 0\nrequire anti(<s0>:)\n".encode_utf16().flat_map(u16::to_le_bytes));
    let cut = stored()[..60].to_vec();
    let longer = [&changed(&[(1, 66)])[..], &[0; 6]].concat();
    let cases: &[(Vec<u8>, &str)] = &[
        (vec![0, 1, 1], "1: it has 3 bytes, and a sheet at least 9"),
        (vec![1], "1: it has 1 byte, and a sheet at least 9"),
        (cut, "1: the length field says 60, and the file has 60 bytes, 58 of them after it"),
        (
            utf16,
            "1: the length field says 65534, and the file has 50 bytes, 48 of them after it; it \
             looks like UTF-16 text, save it as UTF-8",
        ),
        (changed(&[(2, 7)]), "2: the sheet's version is 7, and only 1 is known"),
        (
            changed(&[(3, 2)]),
            "3: the sheet is of kind 2, an emitted formula; a requirement is of kind 1",
        ),
        (changed(&[(3, 9)]), "3: the sheet is of kind 9; a requirement is of kind 1"),
        (changed(&[(4, 17)]), "4: the sheet has 17 signals, and can have 1 to 16"),
        (changed(&[(5, 4)]), "4: the sheet has 4 names, and can have 0 to 3"),
        (changed(&[(6, 1)]), "4: the sheet has 263 nodes, and can have 1 to 64"),
        (changed(&[(8, 0)]), "4: the sheet has 0 clauses, and can have 1 to 8"),
        (longer, "5: the sheet has 68 bytes; with 7 nodes and 1 clause it has 62"),
        (changed(&[(node(4), 8)]), "6: node 4 has op 8, and there is none such"),
        (changed(&[(node(4), 30)]), "6: node 4 has op 30, not, which only formulas have"),
        (
            changed(&[(node(4) + 1, 3)]),
            "6: node 4 (op 16, <a>) has 3 for q, which it doesn't use",
        ),
        (
            changed(&[(node(6) + 3, 2)]),
            "6: node 6 (op 24, slen) has 2 for a, which it doesn't use",
        ),
        (
            changed(&[(node(2) + 3, 2)]),
            "6: node 2 (op 3, signal) has s2, and the sheet has 2 signals",
        ),
        (changed(&[(node(0) + 3, 1)]), "6: node 0 (op 28, at) has u1, and the sheet has 1 name"),
        (changed(&[(node(6) + 1, 5)]), "6: node 6 (op 24, slen) has comparison 5, and they are 0 to 4"),
        (
            changed(&[(node(6), 27), (node(6) + 1, 8), (node(6) + 5, 0)]),
            "6: node 6 (op 27, draw) has symbol 8, and they are 0 to 7",
        ),
        (
            changed(&[(node(6), 29), (node(6) + 3, 4)]),
            "6: node 6 (op 29, gap) has a gap of 4 to 3, the first larger than the second",
        ),
        (
            changed(&[(node(6), 29), (node(6) + 1, 0x20)]),
            "6: node 6 (op 29, gap) has u2, and the sheet has 1 name",
        ),
        (
            changed(&[(node(3) + 5, 9)]),
            "7: operand b of node 3 (op 6, and) is node 9, and operands are earlier nodes",
        ),
        (
            changed(&[(node(4) + 3, 0)]),
            "7: operand a of node 4 (op 16, <a>) is node 0, a formula, where a proposition is needed",
        ),
        (
            changed(&[(node(5) + 5, 3)]),
            "7: operand b of node 5 (op 20, chop) is node 3, a proposition, where a formula is needed",
        ),
        (changed(&[(CLAUSE, 7)]), "8: clause 0 has type 7, and they are 1 to 6"),
        (changed(&[(CLAUSE + 1, 3)]), "8: clause 0 has role 3, and they are 0 to 2"),
        (
            changed(&[(CLAUSE + 3, 7)]),
            "8: clause 0 (implies) has node 7 for D1, and the sheet has 7 nodes",
        ),
        (
            changed(&[(CLAUSE + 5, 2)]),
            "8: clause 0 (implies) has node 2 for D2, a proposition, where a formula is needed",
        ),
        (
            changed(&[(CLAUSE, 3)]),
            "8: clause 0 (anti) has 6 for root 2, and it has 1 part",
        ),
        (
            changed(&[(CLAUSE + 10, 1)]),
            "8: clause 0 (implies) has 1 for mask 3, and it has 2 parts",
        ),
        (
            changed(&[(CLAUSE + 9, 4)]),
            "9: the mask of D2 in clause 0 (implies) has a bit for u2, and the sheet has 1 name",
        ),
        (
            changed(&[(CLAUSE + 8, 0)]),
            "9: the mask of D1 in clause 0 (implies) lacks u0, which the part reaches",
        ),
    ];
    for (sheet, expected) in cases {
        assert_eq!(said_of_sheet(sheet), *expected);
    }
}

#[test]
fn refused_traces() {
    let scratch = Scratch::new("stored-trace");
    let minutes = |count: usize| "s0\n".repeat(count).into_bytes();
    let words = |count: u8| [vec![0, 2 + 2 * count, 1, 3], vec![0; 2 * count as usize]].concat();
    let cases: &[(Vec<u8>, &str)] = &[
        (vec![0, 1, 1], "10: it has 3 bytes, and a trace at least 4"),
        (
            vec![0, 8, 1, 3, 0, 0, 0, 0, 0, 0, 0, 0],
            "10: the length field says 8, and the file has 12 bytes, 10 of them after it",
        ),
        (vec![0, 4, 2, 3, 0, 0], "11: the trace's version is 2, and only 1 is known"),
        (vec![0, 4, 1, 2, 0, 0], "12: the trace has 2 signals, the sheet 3"),
        (vec![0, 2, 1, 3], "13: it has no minute, and needs one"),
        (words(65), "13: it has 65 minutes, and can have 64"),
        (vec![0, 5, 1, 3, 0, 0, 0], "13: a single byte is left at the end, and a minute has two"),
        (
            vec![0, 8, 1, 3, 0, 0, 0, 7, 0, 9],
            "13: minute 2 has s3 set, and the sheet has signals s0 to s2",
        ),
        (minutes(70), "13: it has 70 minutes, and can have 64"),
        (b"s0\n-\ns3 s1\n".to_vec(), "13: minute 2 has s3 set, and the sheet has signals s0 to s2"),
    ];
    for (trace, expected) in cases {
        let ran = run(&["check", "examples/reply/sheet.txt", &scratch.file("trace", trace)]);
        let number = expected.split(':').next().unwrap();
        assert_eq!(
            (ran.err, ran.out),
            (format!("fasunqir check: {expected}\n"), format!("REFUSED {number}\n"))
        );
    }
    // By itself a trace has its own signals, or those that were asked for.
    let own = [0, 4, 1, 17, 0, 0];
    let words = refused::trace(Trace::try_from(&own[..]).unwrap_err(), 17, &own);
    assert_eq!(words, "12: the trace has 17 signals, and can have 1 to 16");
    for (signals, expected) in [
        ("20", "12: the trace has 20 signals, and can have 1 to 16"),
        ("1", "13: minute 1 has s1 set, and the trace has signal s0 alone"),
    ] {
        let ran = run_with(&["store", "-s", signals, "-"], b"-\ns1\n");
        assert_eq!((ran.err, ran.status), (format!("fasunqir store: {expected}\n"), 2));
    }
}

/// A line of minutes is pointed at as well.
#[test]
fn mistyped_minutes() {
    let scratch = Scratch::new("minutes");
    let file = scratch.file("minutes", "s0\ns1,\tx2 s2\n");
    let ran = run(&["check", "examples/reply/sheet.txt", &file]);
    let expected =
        "line 2, column 5: 'x2' is no signal: they are s0 to s15\n    s1, x2 s2\n        ^";
    assert_eq!(ran.err, format!("fasunqir check: {file}: {expected}\n"));
}

/// Each mending of a sheet: the text, what comes of it, and what is said.
#[test]
fn tidied_sheets() {
    const CLEAN: &str = "3 0\nrequire anti(slen >= 5:)\n";
    let cases: &[(&str, &[&str])] = &[
        (CLEAN, &[]),
        ("3 0\r\nrequire anti(slen >= 5:)\r\n", &["carriage returns at 2 line ends"]),
        ("3 0\rrequire anti(slen >= 5:)\r", &["carriage returns at 2 line ends"]),
        ("3 0\nrequire anti(slen >= 5:)\r\r\n", &["carriage returns at 1 line end"]),
        ("\u{feff}3 0\nrequire anti(slen >= 5:)\n", &["a byte-order mark before the text"]),
        ("3 0\nrequire anti(slen >= 5:)", &["no line end after the last line"]),
        ("\n3 0\n \t\nrequire anti(slen >= 5:)\n ", &["3 empty lines; lines are counted without"]),
        (
            "3\u{a0}0\nrequire\u{202f}anti(slen\u{2009}>= 5:)\n",
            &["no-break blanks in lines 1 and 2"],
        ),
        ("3 0\nrequire anti(sl\u{ad}en >= 5:\u{200b})\n", &["invisible characters in line 2"]),
        ("3 0\nrequire anti(slen ≥ 5:)\n", &["'≥' or '≤' in line 2"]),
        ("> 3 0\n>require anti(slen >= 5:)\n", &["quote marks before 2 lines"]),
        (
            ">> 3 0\n> >\n> > require anti(slen >= 5:)",
            &[
                "quote marks before 3 lines",
                "1 empty line; lines are counted without",
                "no line end after the last line",
            ],
        ),
    ];
    for (text, expected) in cases {
        let (mended, told) = tidy::sheet(text.as_bytes());
        assert_eq!(String::from_utf8_lossy(&mended), CLEAN, "{text}");
        assert_eq!(told, *expected, "{text}");
    }
    // Where only some lines are quoted, whose are meant can't be told.
    let mixed = b"> 3 0\n> require anti(<s0>:)\nrequire anti(<s1>:)\n";
    assert_eq!(tidy::sheet(mixed), (mixed.to_vec(), vec![]));
}

#[test]
fn tidied_minutes() {
    let cases: &[(&str, &str, &[&str])] = &[
        ("s0\n-\n# – a \u{a0} comment\ns1, s2", "s0\n-\n# – a \u{a0} comment\ns1, s2", &[]),
        ("s0\r\n-\r\n", "s0\n-\n", &["carriage returns at 2 line ends"]),
        (
            "s0\n \n\u{2013}\n—,\n",
            "s0\n-\n-,\n",
            &["1 empty line; lines are counted without", "long dashes in lines 3 and 4"],
        ),
        (
            "\u{feff}s0\u{a0}s1\n",
            "s0 s1\n",
            &["a byte-order mark before the text", "no-break blanks in line 1"],
        ),
        ("> s0\n> -\n", "s0\n-\n", &["quote marks before 2 lines"]),
        ("s0 – s1\n", "s0 – s1\n", &[]),
    ];
    for (text, expected, told) in cases {
        let (mended, found) = tidy::minutes(text.as_bytes());
        assert_eq!(
            (String::from_utf8_lossy(&mended), &found[..]),
            ((*expected).into(), &told.iter().map(|t| t.to_string()).collect::<Vec<_>>()[..]),
            "{text:?}"
        );
    }
}

/// A sheet out of a mail is checked as the clean one is, and what was mended is said.
#[test]
fn tidied_by_the_command() {
    let scratch = Scratch::new("tidy");
    let clean = std::fs::read_to_string(root().join("examples/reply/sheet.txt")).unwrap();
    let quoted: String = clean.lines().map(|line| format!("> {line}\r\n>\r\n")).collect();
    let mail = quoted.replace(">= 1", "≥\u{a0}1");
    let sheet = scratch.file("mail", format!("\u{feff}{mail}"));
    let ran = run(&["check", "--tidy", &sheet, TRACE]);
    assert_eq!((ran.status, ran.out.as_str()), (1, "BROKEN 1 2 7 7 0\n"));
    let what = [
        "a byte-order mark before the text",
        "carriage returns at 6 line ends",
        "quote marks before 6 lines",
        "3 empty lines; lines are counted without",
        "no-break blanks in line 5",
        "'≥' or '≤' in line 5",
    ];
    let said: String =
        what.iter().map(|what| format!("fasunqir check: {sheet}: mended: {what}\n")).collect();
    assert_eq!(ran.err, said);
    let stored = run(&["store", "--tidy", &sheet]);
    assert_eq!(stored.bytes, bytes::read_text(clean.as_bytes()).unwrap());

    // Without --tidy it is refused, and each line that is quoted is told.
    let ran = run(&["check", &sheet, TRACE]);
    assert_eq!((ran.status, ran.out.as_str()), (2, "REFUSED 19\n"));
    assert!(ran.err.contains("line 3, column 1: a quote mark of a mail stands before the line"));

    // Minutes are told from a sheet by what stands first, whatever a mail program put before it.
    let minutes = scratch.file("minutes", "\u{feff}> s0 s1\r\n> \u{2013}\r\n");
    let ran = run(&["store", "--tidy", "-s", "3", &minutes]);
    assert_eq!(ran.bytes, [0, 6, 1, 3, 0, 3, 0, 0], "{}", ran.err);
}

fn shape(random: &mut Random, case: usize) -> TextShape {
    let flaws = [Flaw::Nothing, Flaw::Counts, Flaw::Fields, Flaw::Masks, Flaw::Nesting(33)];
    TextShape {
        signals: random.between(1, 16),
        names: random.below(4),
        nodes: random.between(1, if case.is_multiple_of(8) { 70 } else { 20 }),
        clauses: random.between(1, if case % 8 == 1 { 9 } else { 4 }),
        flaw: random.pick(&flaws),
    }
}

/// The line and column that a message names, counted from 1.
fn place(message: &str) -> Option<(usize, usize)> {
    let (line, rest) = message.strip_prefix("line ")?.split_once(", column ")?;
    Some((line.parse().ok()?, rest.split_once(':')?.0.parse().ok()?))
}

/// A place is inside the text, its line is shown as it is, and the caret stands under the column.
fn is_inside(text: &[u8], message: &str, (number, column): (usize, usize)) {
    let text = text.strip_prefix(b"\xef\xbb\xbf").unwrap_or(text);
    let line = text.split(|&byte| byte == b'\n').nth(number - 1).unwrap();
    let line = String::from_utf8_lossy(line);
    assert!(column <= line.chars().count() + 1, "{message}");
    let shown: Vec<&str> = message.lines().skip(1).collect();
    if let [shown, caret] = shown[..] {
        assert!(caret.trim_start() == "^" && shown.chars().count() <= 130, "{message}");
        let under = caret.chars().count() - 1;
        if line.chars().count() <= 100 && line.chars().all(|c| (' '..='~').contains(&c)) {
            assert_eq!(
                (&shown[4..], under),
                (line.trim_end_matches('\r'), column + 3),
                "{message}"
            );
        }
    } else {
        assert!(shown.is_empty(), "{message}");
    }
}

/// What is said of damaged texts: each place is in the text, each line that is told is refused by the
/// library under a good first line, and only 19 may go without a place.
#[test]
fn damaged_texts() {
    let mut random = Random::new(171);
    let mut counts = [0; 23];
    let (mut told, mut processes) = (0, 0);
    for case in 0..9000 {
        let shape = shape(&mut random, case);
        let mut text = typed(&mut random, shape).text;
        for _ in 0..random.below(4) {
            text = damaged(&mut random, &text);
        }
        let Err(error) = bytes::read_text(&text) else { continue };
        counts[usize::from(error.number())] += 1;
        let messages = typing::faults("x", &text, error);
        assert!(!messages.is_empty());
        for message in &messages {
            let message = message.strip_prefix("x: ").unwrap();
            assert!(message.chars().all(|c| c == '\n' || !c.is_control()), "{message:?}");
            assert!(*message != error.to_string(), "{}", String::from_utf8_lossy(&text));
            assert!(!message.contains("it is outside the grammar"), "{message}");
            assert!(!message.contains("it is refused by"), "{message}");
            let Some(place) = place(message) else { continue };
            told += 1;
            is_inside(&text, message, place);
            if error.number() == 19 && !message.contains("the last line has no line end") {
                agrees(&text, place.0, message);
            }
        }
        // The process says the same.
        let control = text.iter().any(|byte| matches!(byte, 0..=8 | 14..=31));
        if case % 40 == 0 && !control && text.contains(&b'(') {
            let (words, answer) = said(&text);
            let expected: String =
                messages.iter().map(|message| format!("{}\n", &message[3..])).collect();
            assert_eq!((words, answer), (expected, format!("REFUSED {}\n", error.number())));
            processes += 1;
        }
    }
    println!("refused by {counts:?}; {told} places told, {processes} by the process");
    for number in [4, 6, 9, 18, 19, 20] {
        assert!(counts[number] > 50, "{number}: {}", counts[number]);
    }
    assert!(told > 4000 && processes > 50);
}

/// The library refuses the line by itself: as a clause line, or as the first, up to where the counts are.
fn agrees(text: &[u8], number: usize, message: &str) {
    let text = text.strip_prefix(b"\xef\xbb\xbf").unwrap_or(text);
    let lines: Vec<&[u8]> = text
        .split_inclusive(|&byte| byte == b'\n')
        .map(|line| match line.strip_suffix(b"\n") {
            Some(line) => line.strip_suffix(b"\r").unwrap_or(line),
            None => line,
        })
        .collect();
    let line = lines[number - 1];
    let counted = |line: &&[u8]| refusal(&[line, b"require anti(<true>:)"]) != Some(19);
    let as_first = refusal(&[line, b"require anti(<true>:)"]) == Some(19);
    let as_clause = refusal(&[b"16 3", line]) == Some(19);
    let first = !lines[..number].iter().any(counted);
    assert!(as_clause || first && as_first, "{message}");
}

/// The reader for words stops where the library refuses a line, and at no other line.
#[test]
fn second_reader() {
    let mut random = Random::new(172);
    let (mut good, mut bad) = (0, 0);
    for case in 0..6000 {
        let shape = TextShape { flaw: Flaw::Nothing, ..shape(&mut random, case) };
        let text = typed(&mut random, shape).text;
        let text = if case % 3 == 0 { text } else { damaged(&mut random, &text) };
        for line in text.split(|&byte| byte == b'\n') {
            let as_clause = refusal(&[b"16 3", line]);
            let as_first = refusal(&[line, b"require anti(<true>:)"]);
            if as_clause == Some(18) || as_first == Some(18) {
                continue;
            }
            let shown = String::from_utf8_lossy(line);
            assert_eq!(grammar::clause(line).is_err(), as_clause == Some(19), "{shown}");
            assert_eq!(grammar::counts(line).is_err(), as_first == Some(19), "{shown}");
            if as_clause == Some(19) {
                bad += 1;
            } else {
                good += 1;
            }
        }
    }
    println!("{good} clause lines and {bad} others");
    assert!(good > 5000 && bad > 5000);
}

/// A good line with a byte that nothing has in it stops there, or at the word that the byte cuts.
#[test]
fn stops_where_it_goes_wrong() {
    let mut random = Random::new(173);
    for case in 0..300 {
        let shape = TextShape { flaw: Flaw::Nothing, ..shape(&mut random, case) };
        let text = typed(&mut random, shape).text;
        for line in text.split(|&byte| byte == b'\n').skip(1).filter(|line| !line.is_empty()) {
            for at in 0..=line.len() {
                let run = line[..at].iter().rev().take_while(|byte| byte.is_ascii_alphanumeric());
                let odd = [&line[..at], b"@", &line[at..]].concat();
                let stop = grammar::clause(&odd).unwrap_err();
                let cut_sign = at > 0 && grammar::sign(&line[at - 1..]).len() == 2;
                let least = at - run.count().max(cut_sign.into());
                assert!((least..=at).contains(&stop.at), "{}", String::from_utf8_lossy(&odd));
                // so with a line that ends too early
                let cut = &line[..at];
                let end = cut.iter().rposition(|byte| !b" \t".contains(byte)).map_or(0, |k| k + 1);
                if let Err(stop) = grammar::clause(cut) {
                    assert!(
                        (least.min(end)..=end).contains(&stop.at),
                        "{}",
                        String::from_utf8_lossy(cut)
                    );
                }
            }
        }
    }
}

/// Something is found of every damaged stored sheet and trace that is refused.
#[test]
fn damaged_bytes() {
    let mut random = Random::new(174);
    let mut counts = [0; 14];
    for _ in 0..20_000 {
        let names = random.below(4);
        let shape = Shape {
            signals: random.between(1, 16),
            names,
            nodes: random.between(3, 20),
            clauses: random.between(1, 5),
            numbers: 5,
        };
        let sheet = generate::plain(&mut random, shape).bytes();
        let sheet = generate::damaged(&mut random, &sheet);
        if let Err(error) = Sheet::try_from(&sheet[..]) {
            let words = refused::sheet(error, &sheet);
            assert!(
                words.starts_with(&format!("{}: ", error.number())) && words != error.to_string()
            );
            counts[usize::from(error.number())] += 1;
        }
        let cycles = random.between(1, 6);
        let trace = generate::trace(&mut random, shape.signals, cycles).bytes();
        let trace = generate::damaged(&mut random, &trace);
        let smallest = format!("{} 0\nrequire anti(slen < 0:)\n", shape.signals);
        let smallest: Sheet = smallest.parse().unwrap();
        if let Err(error) = smallest.trace(&trace) {
            let words = refused::trace(error, shape.signals, &trace);
            assert!(
                words.starts_with(&format!("{}: ", error.number())) && words != error.to_string()
            );
            counts[usize::from(error.number())] += 1;
        }
    }
    println!("refused by {counts:?}");
    assert!(counts[1..].iter().all(|&count| count > 50), "{counts:?}");
}

/// What mail programs do to a clean text is mended without a trace, and tidying twice is tidying once.
#[test]
fn random_mail() {
    let mut random = Random::new(175);
    for case in 0..4000 {
        let shape = TextShape { flaw: Flaw::Nothing, ..shape(&mut random, case) };
        let clean = typed(&mut random, shape).text;
        assert_eq!(tidy::sheet(&clean), (clean.clone(), vec![]));
        let mail = mailed(&mut random, &clean);
        let (mended, told) = tidy::sheet(&mail);
        assert_eq!(bytes::read_text(&mended), bytes::read_text(&clean));
        assert_eq!(told.is_empty(), mended == mail);
        let broken = damaged(&mut random, &mail);
        for text in [mail, broken] {
            for tidied in [tidy::sheet, tidy::minutes] {
                let (once, _) = tidied(&text);
                assert_eq!(
                    tidied(&once),
                    (once.clone(), vec![]),
                    "{}",
                    String::from_utf8_lossy(&text)
                );
            }
        }
    }
}

/// So it is with minutes, whose dashes may have become long.
#[test]
fn random_minutes() {
    let mut random = Random::new(176);
    for _ in 0..2000 {
        let cycles = random.between(1, 20);
        let trace = generate::trace(&mut random, 16, cycles).bytes();
        let clean = Trace::try_from(&trace[..]).unwrap().to_string();
        assert_eq!(tidy::minutes(clean.as_bytes()), (clean.clone().into_bytes(), vec![]));
        let dash = random.pick(&["-", "\u{2013}", "\u{2014}", "\u{2212}"]);
        let mail = mailed(&mut random, clean.replace('-', dash).as_bytes());
        let (mended, told) = tidy::minutes(&mail);
        let mended = String::from_utf8(mended).unwrap();
        assert_eq!(fasunqir::read_minutes(&mended), fasunqir::read_minutes(&clean));
        assert_eq!(told.is_empty(), mended.as_bytes() == mail);
        let broken = damaged(&mut random, &mail);
        for text in [mail, broken] {
            let (once, _) = tidy::minutes(&text);
            assert_eq!(tidy::minutes(&once), (once.clone(), vec![]));
        }
    }
}

/// A text as it may come out of a mail.
fn mailed(random: &mut Random, clean: &[u8]) -> Vec<u8> {
    let text = String::from_utf8(clean.to_vec()).unwrap();
    let end = random.pick(&["\n", "\r\n", "\r"]);
    let quotes = random.pick(&["", "", "> ", ">", "> > ", ">>"]);
    let mut mail = String::from(random.pick(&["", "\u{feff}"]));
    for line in text.lines() {
        let line = match random.below(4) {
            0 => line.replace(">=", "≥").replace("<=", "≤"),
            1 => line.replace(' ', random.pick(&["\u{a0}", "\u{202f}", "\u{3000}"])),
            2 => line.replace('(', "\u{200b}("),
            _ => line.to_string(),
        };
        mail += &format!("{quotes}{line}{end}");
        if random.one_in(4) {
            mail += &format!("{quotes}{}{end}", random.pick(&["", " ", "\t\u{a0}"]));
        }
    }
    if random.one_in(3) {
        mail.truncate(mail.len() - end.len());
    }
    mail.into_bytes()
}
