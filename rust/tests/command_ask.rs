//! The commands check, store, table and formula, on every form of sheets and traces.

mod build;
mod command;
mod generate;
mod reference;

use build::hex_file;
use command::{root, run, run_with, Ran, Scratch};
use fasunqir::{bytes, Sheet, Trace};
use generate::text::{typed, Flaw, TextShape};
use generate::Random;
use std::fs;

fn read(path: &str) -> Vec<u8> {
    fs::read(root().join(path)).unwrap()
}

fn from_hex(path: &str) -> Vec<u8> {
    hex_file(&String::from_utf8(read(path)).unwrap())
}

/// The line on standard output, and the status; where it is no refusal nothing else is said.
fn answered(ran: &Ran) -> (String, i32) {
    assert!(ran.status == 2 || ran.err.is_empty(), "{}", ran.err);
    (ran.out.clone(), ran.status)
}

/// Files of a folder under examples/ that end so.
fn examples(end: &str) -> Vec<String> {
    let mut found = vec![];
    for folder in fs::read_dir(root().join("examples")).unwrap() {
        for file in fs::read_dir(folder.unwrap().path()).unwrap() {
            let path = file.unwrap().path();
            let path = path.strip_prefix(root()).unwrap().to_str().unwrap().to_string();
            found.extend(path.ends_with(end).then_some(path));
        }
    }
    found.sort();
    assert!(!found.is_empty());
    found
}

/// runs/examples.txt: sheet, trace, the status and the line; each with the trace as hexadecimal and as
/// minutes, and with the stored bytes of both.
#[test]
fn examples_get_their_lines() {
    let scratch = Scratch::new("lines");
    let lines = String::from_utf8(read("runs/examples.txt")).unwrap();
    let mut count = 0;
    for case in lines.lines().filter(|line| !line.starts_with('#')) {
        let mut words = case.splitn(4, ' ');
        let mut next = || words.next().unwrap().to_string();
        let (sheet, trace) = (format!("examples/{}", next()), format!("examples/{}", next()));
        let (status, line) = (next().parse::<i32>().unwrap(), format!("{}\n", next()));
        assert_eq!(answered(&run(&["check", &sheet, &trace])), (line.clone(), status), "{case}");
        let minutes = trace.replace(".hex", ".txt");
        if status != 2 {
            assert_eq!(
                answered(&run(&["check", &sheet, &minutes])),
                (line.clone(), status),
                "{case}"
            );
        }
        let stored = |name: &str, path: &str| scratch.file(name, run(&["store", path]).bytes);
        let (sheet, trace) = (stored("sheet", &sheet), stored("trace", &trace));
        assert_eq!(answered(&run(&["check", &sheet, &trace])), (line, status), "{case}, as bytes");
        count += 1;
    }
    assert!(count >= 40, "{count} lines");
}

/// A typed sheet is its hexadecimal twin, minutes are the hexadecimal trace.
#[test]
fn examples_are_stored_alike() {
    for sheet in examples("sheet.txt") {
        let twin = from_hex(&sheet.replace(".txt", ".hex"));
        assert_eq!(run(&["store", &sheet]).bytes, twin, "{sheet}");
        assert_eq!(run(&["store", &sheet.replace(".txt", ".hex")]).bytes, twin, "{sheet}");
    }
    for trace in examples(".hex").iter().filter(|path| !path.ends_with("sheet.hex")) {
        let twin = from_hex(trace);
        let (minutes, signals) = (trace.replace(".hex", ".txt"), twin[3].to_string());
        assert_eq!(run(&["store", "-s", &signals, &minutes]).bytes, twin, "{trace}");
        assert_eq!(run(&["store", trace]).bytes, twin, "{trace}");
    }
}

/// Without -s minutes have as many signals as they name.
#[test]
fn minutes_are_stored() {
    let stored = |text: &[u8]| run_with(&["store", "-"], text);
    assert_eq!(stored(b"-\ns0 s2\n").bytes, [0, 6, 1, 3, 0, 0, 0, 5]);
    assert_eq!(stored(b"-\r\nS2,s0").bytes, [0, 6, 1, 3, 0, 0, 0, 5]);
    assert_eq!(stored(b"# none is high\n-\n").bytes, [0, 4, 1, 1, 0, 0]);
    let ran = run_with(&["store", "-s", "2", "-"], b"-\ns2\n");
    assert_eq!((ran.status, ran.bytes.len()), (2, 0));
    assert!(ran.err.starts_with("fasunqir store: 13: minute 1 has s2 set"), "{}", ran.err);
    let ran = run_with(&["store", "-s", "17", "-"], b"-\n");
    assert!(ran.status == 2 && ran.err.starts_with("fasunqir store: 12: "), "{}", ran.err);
    let ran = stored(b"s0\ns1 - s2\n");
    assert_eq!((ran.status, ran.bytes.len()), (2, 0));
    let caret = "    s1 - s2\n       ^\n";
    let said =
        format!("standard input: line 2, column 4: a dash is there beside other words\n{caret}");
    assert_eq!(ran.err, format!("fasunqir store: {said}"));
}

/// A sheet of a few clauses, as text and as it is read, and a short trace for it; none where the text says
/// no sheet.
fn small(random: &mut Random) -> Option<(Vec<u8>, Sheet, Trace)> {
    let shape = TextShape {
        signals: random.between(1, 4),
        names: random.below(3),
        nodes: random.between(2, 20),
        clauses: random.between(1, 3),
        flaw: Flaw::Nothing,
    };
    let text = typed(random, shape).text;
    let sheet = bytes::read_text(&text).and_then(Sheet::try_from).ok()?;
    let cycles = random.between(1, 10);
    let trace = generate::trace(random, sheet.signals(), cycles);
    let trace = sheet.trace(&trace.bytes()).unwrap();
    Some((text, sheet, trace))
}

/// Sheets as people type them with minutes, in every form of both, get the library's own line.
#[test]
fn forms_make_no_difference() {
    let scratch = Scratch::new("forms");
    let mut random = Random::new(77);
    let mut statuses = [0; 3];
    for _ in 0..150 {
        let Some((text, sheet, trace)) = small(&mut random) else { continue };
        let verdict = sheet.check(&trace).unwrap();
        let hex = |bytes: &[u8]| format!("# hexadecimal\n{}\n", build::hex(bytes));
        let sheets = [
            scratch.file("text", &text),
            scratch.file("sheet", sheet.as_bytes()),
            scratch.file("sheet.hex", hex(sheet.as_bytes())),
        ];
        let traces = [
            scratch.file("minutes", trace.to_string()),
            scratch.file(
                "careless",
                trace.to_string().trim_end().replace(' ', ",").replace('\n', "\r\n").to_uppercase(),
            ),
            scratch.file("trace", trace.as_bytes()),
            scratch.file("trace.hex", hex(trace.as_bytes())),
        ];
        for sheet in &sheets {
            for trace in &traces {
                let ran = run(&["check", sheet, trace]);
                assert_eq!((ran.out, ran.err.as_str()), (format!("{verdict}\n"), ""));
                statuses[ran.status as usize] += 1;
            }
        }
    }
    assert!(statuses[0] >= 400 && statuses[1] >= 200 && statuses[2] == 0, "{statuses:?}");
}

#[test]
fn clauses_are_made_advice() {
    let late = "examples/reply/late.txt";
    let ran = run(&["check", "--advice", "1", "examples/reply/sheet.txt", late]);
    assert_eq!(answered(&ran), ("HOLDS 2\n".to_string(), 0));
    let ran = run(&["check", "--advice=0,1", "examples/reply/sheet.hex", late]);
    assert_eq!(answered(&ran), ("HOLDS 2\n".to_string(), 0));
    let stored = run(&["store", "--advice", "2,3", "examples/habits/sheet.hex"]).bytes;
    assert_eq!(stored, from_hex("examples/habits/sheet.hex"));
    let ran = run(&["check", "--advice", "2", "examples/reply/sheet.txt", late]);
    assert_eq!((ran.out.as_str(), ran.status), ("", 2));
    assert_eq!(ran.err, "fasunqir check: --advice 2: the sheet's clauses are 0 to 1\n");
}

#[test]
fn formulas_are_the_librarys() {
    for sheet in examples("sheet.hex") {
        let formula = bytes::translate(&from_hex(&sheet)).unwrap();
        assert_eq!(run(&["formula", &sheet]).bytes, formula, "{sheet}");
    }
    let ran = run(&["formula", "examples/paper/trace.hex"]);
    assert_eq!((ran.status, ran.bytes.len()), (2, 0));
    assert!(ran.err.starts_with("fasunqir formula: 4: "), "{}", ran.err);
}

#[test]
fn tables_in_minutes() {
    let (sheet, trace) = ("examples/reply/sheet.txt", "examples/reply/late.txt");
    let ran = run(&["table", sheet, trace, "1", "1"]);
    assert_eq!(answered(&ran), ("from minute 2 to minute 7\n".to_string(), 0));
    let ran = run(&["table", sheet, trace, "1", "2"]);
    let rows: String = (0..=9).map(|b| format!("from minute {b} to minute 9\n")).collect();
    assert_eq!(answered(&ran), (rows, 0));
    let ran = run(&["table", "-n", "1", sheet, trace]);
    assert_eq!(ran.out.lines().next(), Some("from minute 0 to minute 0-9"));

    let (sheet, trace) = ("examples/before/sheet.txt", "examples/before/late.txt");
    let ran = run(&["table", sheet, trace, "0", "1", "-u0", "8"]);
    assert_eq!(answered(&ran), ("from minute 2 to minute 8\n".to_string(), 0));
    let ran = run(&["table", "-u0=7", sheet, trace, "0", "1"]);
    assert_eq!(answered(&ran), ("on no interval\n".to_string(), 0));

    let refused = |arguments: &[&str]| {
        let ran = run(&[&["table"], arguments].concat());
        assert_eq!((ran.out.as_str(), ran.status), ("", 2));
        ran.err
    };
    let word = "fasunqir table: it goes by the minute of u0: put it there by -u0 MINUTE\n";
    assert_eq!(refused(&[sheet, trace, "0", "1"]), word);
    let word = "fasunqir table: no clause 1: the sheet's clauses are 0 to 0\n";
    assert_eq!(refused(&[sheet, trace, "1", "1"]), word);
    let word = "fasunqir table: no part 4: clause 0, triggers, has parts 1 to 3\n";
    assert_eq!(refused(&[sheet, trace, "0", "4"]), word);
    assert!(refused(&["-n", "0", sheet, trace]).starts_with("fasunqir table: 16: "));
    assert!(refused(&["-u0", "10", sheet, trace, "0", "1"]).starts_with("fasunqir table: 17: "));
}

/// The table that the command tells is the library's, on random sheets.
#[test]
fn tables_are_the_librarys() {
    let scratch = Scratch::new("tables");
    let mut random = Random::new(78);
    let mut told = 0;
    for _ in 0..150 {
        let Some((text, sheet, trace)) = small(&mut random) else { continue };
        let cycles = trace.cycles().len();
        let clause = random.below(sheet.clauses().len());
        let part = random.below(sheet.clauses()[clause].parts.len());
        let names = [0; 3].map(|_| random.below(cycles));
        let root = sheet.clauses()[clause].parts[part].root;
        let table = sheet.table(&trace, root, names).unwrap();
        let (sheet, trace) =
            (scratch.file("sheet", &text), scratch.file("trace", trace.to_string()));
        let [u0, u1, u2] = names.map(|minute| minute.to_string());
        let numbers = [clause.to_string(), (part + 1).to_string()];
        let ran = run(&[
            "table",
            "-u0",
            &u0,
            "-u1",
            &u1,
            "-u2",
            &u2,
            &sheet,
            &trace,
            &numbers[0],
            &numbers[1],
        ]);
        assert_eq!(ran.status, 0, "{}", ran.err);
        let mut rows = [0u64; 64];
        for line in ran.out.lines().filter(|line| *line != "on no interval") {
            let (from, to) =
                line.strip_prefix("from minute ").unwrap().split_once(" to minute ").unwrap();
            for run in to.split(", ") {
                let (first, last) = run.split_once('-').unwrap_or((run, run));
                for end in first.parse::<usize>().unwrap()..=last.parse().unwrap() {
                    rows[from.parse::<usize>().unwrap()] |= 1 << end;
                    told += 1;
                }
            }
        }
        assert_eq!(rows, table.rows);
    }
    assert!(told >= 1000, "{told} intervals");
}

/// A sheet where a trace is wanted and the other way round, and a first line alone.
#[test]
fn files_at_the_wrong_place_are_told() {
    let (sheet, trace) = ("examples/reply/sheet.txt", "examples/reply/late.txt");
    let ran = run(&["check", trace, sheet]);
    let word =
        format!("fasunqir check: {trace}: its lines are minutes, and a sheet is wanted here\n");
    assert_eq!((ran.out.as_str(), ran.err, ran.status), ("REFUSED 19\n", word, 2));
    let ran = run(&["check", sheet, sheet]);
    let word =
        format!("fasunqir check: {sheet}: it is a typed sheet, and a trace is wanted here\n");
    assert_eq!((ran.out.as_str(), ran.err, ran.status), ("", word, 2));
    let ran = run_with(&["check", "-", trace], b"3 0\n");
    assert_eq!((ran.out.as_str(), ran.status), ("REFUSED 4\n", 2));
    assert!(ran.err.contains("no clause line follows the first line"), "{}", ran.err);
}
