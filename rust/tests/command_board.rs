//! `fasunqir board`: minutes in, a line each out.

mod command;

use command::{command, root, run, run_with, Ran, Scratch};
use fasunqir::{read_minutes, Sheet, Trace};
use std::fs;
use std::io::{BufRead, BufReader, Read, Write};
use std::path::Path;
use std::process::{Child, ChildStdin, Command, Stdio};

const REPLY: &str = "examples/reply/sheet.txt";
const PAPER: &str = "examples/paper/sheet.txt";

fn closed(minute: usize) -> String {
    format!(
        "fasunqir board: minute {minute}: closed: a commitment is broken, and no later minute mends \
         it; only a failing assumption can still excuse it\n"
    )
}

fn settled(minute: usize) -> String {
    format!(
        "fasunqir board: minute {minute}: final: an assumption failed, and no later minute changes \
         that; EXCUSED stays\n"
    )
}

fn board(sheet: &str, minutes: &str) -> Ran {
    run_with(&["board", sheet], minutes.as_bytes())
}

/// What a run wrote, a line with its status, and what it said.
fn told(ran: &Ran) -> String {
    format!("{}status {}\n{}", ran.out, ran.status, ran.err)
}

fn text(path: impl AsRef<Path>) -> String {
    fs::read_to_string(root().join(path)).unwrap()
}

/// The stored runs: name, sheet and minutes. Those in `runs/board` are of the offer clock.
fn stored_runs() -> Vec<(String, String, String)> {
    let mut runs = vec![];
    for name in ["reply", "mistyped"] {
        runs.push((name.to_string(), REPLY.to_string(), text(format!("runs/board/{name}.txt"))));
    }
    for folder in fs::read_dir(root().join("examples")).unwrap() {
        let folder = folder.unwrap().path();
        let name = folder.file_name().unwrap().to_str().unwrap().to_string();
        if let Ok(minutes) = fs::read_to_string(folder.join("minutes.txt")) {
            runs.push((name.clone(), format!("examples/{name}/sheet.txt"), minutes));
        }
    }
    assert!(runs.len() >= 4);
    runs
}

#[test]
fn stored_runs_are_as_they_were() {
    let scratch = Scratch::new("board-runs");
    for (name, sheet, minutes) in stored_runs() {
        let expected = text(format!("runs/board/{name}.out"));
        assert_eq!(told(&board(&sheet, &minutes)), expected, "{name}");
        let stored: Sheet = text(&sheet).parse().unwrap();
        let stored = scratch.file(&name, stored.as_bytes());
        assert_eq!(told(&board(&stored, &minutes)), expected, "{name}, the sheet as bytes");
        let hexadecimal = sheet.replace(".txt", ".hex");
        assert_eq!(told(&board(&hexadecimal, &minutes)), expected, "{name}, in hexadecimal");
    }
}

#[test]
fn each_line_is_the_check_of_the_minutes_so_far() {
    for (name, sheet, minutes) in stored_runs() {
        let Ok(cycles) = read_minutes(&minutes) else { continue };
        let sheet_read: Sheet = text(&sheet).parse().unwrap();
        let ran = board(&sheet, &minutes);
        for (minute, line) in ran.out.lines().enumerate() {
            let trace = Trace::from_cycles(sheet_read.signals(), &cycles[..=minute]).unwrap();
            let verdict = sheet_read.check(&trace).unwrap();
            assert_eq!(line, format!("{minute:<3}{verdict}"), "{name}");
        }
        assert_eq!(ran.out.lines().count(), cycles.len(), "{name}");
    }
}

#[test]
fn a_line_is_closed_right_after_the_minute_that_breaks_it() {
    let shell = format!("exec '{}' board {PAPER} 2>&1", env!("CARGO_BIN_EXE_fasunqir"));
    let mut child = Command::new("sh")
        .args(["-c", &shell])
        .current_dir(root())
        .stdin(Stdio::piped())
        .stdout(Stdio::piped())
        .spawn()
        .unwrap();
    child.stdin.take().unwrap().write_all(b"-\ns0\ns0 s1\n-\n").unwrap();
    let output = child.wait_with_output().unwrap();
    let expected = format!(
        "0  HOLDS 0\n1  BROKEN 0 1 1 1 0\n{}-  REFUSED 21\n\
         fasunqir board: line 3: 21: s1 is set, and the sheet has signal s0 alone\n\
         2  BROKEN 0 1 1 1 0\n",
        closed(1)
    );
    assert_eq!(String::from_utf8_lossy(&output.stdout), expected);
    assert_eq!(output.status.code(), Some(2));
}

#[test]
fn the_status_goes_by_the_last_verdict() {
    for (minutes, status) in [
        ("", 0),
        ("# nothing yet\n", 0),
        ("s2\n", 0),
        ("s0 s2\ns2\ns2\ns2\ns2\ns2\n", 1),
        ("s0 s2\ns2\ns2\ns2\ns2\ns2\n-\n", 0),
        ("s2\ns5\n", 2),
        ("s2\nsix\n", 2),
        ("s0 s2\ns2\ns2\ns2\ns2\ns2\nundo\n", 0),
        ("undo\ns2\n", 2),
    ] {
        assert_eq!(board(REPLY, minutes).status, status, "{minutes:?}");
    }
    assert_eq!(told(&board(REPLY, "")), "status 0\n");
}

#[test]
fn a_refused_sheet_has_the_only_line() {
    let scratch = Scratch::new("board-refused");
    let typed = scratch.file("typed", "1 0\nrequire anti(<s0>)\n");
    let longer = text("examples/paper/sheet.hex") + &text("examples/paper/trace.hex");
    let longer = scratch.file("longer", longer);
    for (sheet, number) in
        [(typed.as_str(), 19), ("examples/paper/trace.hex", 4), (longer.as_str(), 1)]
    {
        let refused = board(sheet, "s0\n");
        assert_eq!(refused.out, format!("REFUSED {number}\n"), "{sheet}");
        assert_eq!(refused.status, 2, "{sheet}");
        assert!(refused.err.starts_with("fasunqir board: "), "{}", refused.err);
    }
}

#[test]
fn standard_input_has_the_minutes_alone() {
    let sheet = board("-", "1 0\nrequire anti(<s0>:)\n");
    assert_eq!((sheet.status, sheet.out.as_str()), (2, ""));
    assert_eq!(
        sheet.err,
        "fasunqir board: the sheet can't be '-', since standard input has the minutes\n"
    );
    let two = run(&["board", PAPER, "examples/paper/trace.hex"]);
    assert_eq!((two.status, two.out.as_str()), (2, ""));
    assert!(two.err.starts_with("fasunqir board: it takes SHEET; "), "{}", two.err);
}

/// A board that was started, its output and what it says in our hands, and its minutes.
fn started() -> (Child, ChildStdin) {
    let mut board = command(&["board", PAPER]);
    let piped = board.stdin(Stdio::piped()).stdout(Stdio::piped()).stderr(Stdio::piped());
    let mut child = piped.spawn().unwrap();
    let minutes = child.stdin.take().unwrap();
    (child, minutes)
}

#[test]
fn a_minute_is_answered_before_the_next() {
    let (mut child, mut minutes) = started();
    let mut lines = BufReader::new(child.stdout.take().unwrap()).lines();
    for (minute, line) in [
        ("-", "0  HOLDS 0"),
        ("s0 s1", "-  REFUSED 21"),
        ("undo\n-", "0  HOLDS 0"),
        ("# a comment\nS0,\r", "1  BROKEN 0 1 1 1 0"),
        ("-", "2  BROKEN 0 1 1 1 0"),
    ] {
        writeln!(minutes, "{minute}").unwrap();
        assert_eq!(lines.next().unwrap().unwrap(), line, "{minute}");
    }
    drop(minutes);
    assert!(lines.next().is_none());
    let mut said = String::new();
    child.stderr.take().unwrap().read_to_string(&mut said).unwrap();
    assert!(said.ends_with(&closed(1)), "{said}");
    assert_eq!(child.wait().unwrap().code(), Some(2));
}

#[test]
fn it_ends_where_its_lines_are_not_read() {
    let (mut child, mut minutes) = started();
    let mut lines = BufReader::new(child.stdout.take().unwrap());
    minutes.write_all(b"-\n").unwrap();
    let mut line = String::new();
    lines.read_line(&mut line).unwrap();
    assert_eq!(line, "0  HOLDS 0\n");
    drop(lines);
    while minutes.write_all(b"-\n").is_ok() {}
    let ended = child.wait_with_output().unwrap();
    assert_eq!(ended.status.code(), Some(2));
    assert_eq!(
        String::from_utf8_lossy(&ended.stderr),
        "fasunqir board: standard output can't be written: Broken pipe (os error 32)\n"
    );
}

#[test]
fn undo_takes_the_last_minute_back() {
    let broken = "s0 s2\ns2\ns2\ns2\ns2\ns2\n";
    let mended = board(REPLY, &format!("{broken}undo\ns1 s2\n"));
    assert_eq!(mended.status, 0);
    assert!(mended.out.ends_with("5  BROKEN 1 0 5 5 0\n5  HOLDS 0\n"), "{}", mended.out);
    assert_eq!(mended.err, closed(5) + "fasunqir board: undone: 5 minutes are left\n");

    // what is settled is said again where it is settled again
    let again = board(REPLY, &format!("{broken}undo\ns2\ns2\n-\nundo\n-\n"));
    let undone = |left| format!("fasunqir board: undone: {left} minutes are left\n");
    assert_eq!(
        again.err,
        closed(5) + &undone(5) + &closed(5) + &settled(7) + &undone(7) + &settled(7)
    );
    assert_eq!(again.status, 0);

    // a minute that was refused was not taken, so the one before it is taken back
    let refused = board(REPLY, "s2\ns5\nUNDO  # a slip\nundo\ns2\n");
    assert_eq!(refused.out, "0  HOLDS 0\n-  REFUSED 21\n0  HOLDS 0\n");
    assert_eq!(
        refused.err,
        "fasunqir board: line 2: 21: s5 is set, and the sheet has signals s0 to s2\n\
         fasunqir board: undone: no minute is left\n\
         fasunqir board: line 4: undo: there is no minute to take back\n"
    );
}

#[test]
fn a_minute_taken_back_leaves_no_trace() {
    let minutes = ["s0", "s1 s2", "-", "s0 s3", "s2", "s1", "-", "s3"];
    let plain = board("examples/clocks/sheet.txt", &(minutes.join("\n") + "\n"));
    let undone: String = minutes
        .iter()
        .map(|minute| format!("s0 s1 s2 s3\ns9\ns1\nundo\nundo\n{minute}\n"))
        .collect();
    let undone = board("examples/clocks/sheet.txt", &undone);
    let kept: String =
        undone.out.lines().skip(3).step_by(4).map(|line| format!("{line}\n")).collect();
    assert_eq!(kept, plain.out);
}

#[test]
fn words_end_it_and_help() {
    for word in ["quit", "end", " End # for today"] {
        let ended = board(REPLY, &format!("s2\n{word}\ns2\n"));
        assert_eq!(told(&ended), "0  HOLDS 0\nstatus 0\n", "{word}");
    }
    let helped = board(REPLY, "help\n");
    assert_eq!((helped.status, helped.out.as_str()), (0, ""));
    assert!(helped.err.contains("undo takes the last minute back"), "{}", helped.err);
}

#[test]
fn minutes_are_read_as_people_type_them() {
    let ran = board(REPLY, "# the link is up\r\nS2,s0\r\n\ts2 , S1 # a reply\r\n-#\ns2");
    assert_eq!(ran.out, "0  HOLDS 0\n1  HOLDS 0\n2  EXCUSED 0 0\n3  EXCUSED 0 0\n");
    assert_eq!(ran.err, settled(2));
}

#[test]
fn a_sixty_fifth_minute_is_refused() {
    let ran = board(PAPER, &"-\n".repeat(66));
    assert_eq!(ran.out.lines().count(), 66);
    assert!(ran.out.ends_with("63 HOLDS 0\n-  REFUSED 22\n-  REFUSED 22\n"), "{}", ran.out);
    assert_eq!(
        ran.err,
        "fasunqir board: line 65: 22: 64 minutes are taken already\n\
         fasunqir board: line 66: 22: 64 minutes are taken already\n"
    );
    assert_eq!(ran.status, 2);
    let undone = board(PAPER, &("-\n".repeat(65) + "undo\ns0\n"));
    assert!(undone.out.ends_with("-  REFUSED 22\n63 BROKEN 0 63 63 63 0\n"), "{}", undone.out);
}

#[test]
fn clauses_are_made_advice() {
    let late = "s0 s2\ns2\ns2\ns2\ns2\ns2\n";
    let ran = run_with(&["board", "--advice", "1", REPLY], late.as_bytes());
    assert!(ran.out.ends_with("5  HOLDS 2\n"), "{}", ran.out);
    assert_eq!((ran.status, ran.err.as_str()), (0, ""));
}

#[test]
fn long_lines_are_passed_over() {
    let fits = " ".repeat(4094) + "s2\n";
    let longer = " ".repeat(4095) + "s2\n";
    let ran = board(REPLY, &format!("{fits}{longer}{}\ns2\n", "s".repeat(100_000)));
    assert_eq!(ran.out, "0  HOLDS 0\n1  HOLDS 0\n");
    assert_eq!(
        ran.err,
        "fasunqir board: line 2: it has more than 4096 bytes, which no minute has\n\
         fasunqir board: line 3: it has more than 4096 bytes, which no minute has\n"
    );
    assert_eq!(ran.status, 2);
}

#[test]
fn a_line_without_end_ends_it() {
    let zeros = fs::File::open("/dev/zero").unwrap();
    let ended = command(&["board", PAPER]).stdin(zeros).output().unwrap();
    assert_eq!(ended.status.code(), Some(2));
    assert_eq!(
        String::from_utf8_lossy(&ended.stderr),
        "fasunqir board: line 1 goes on after 1052672 bytes: these are no minutes\n"
    );
    assert!(ended.stdout.is_empty());
}

#[test]
fn what_is_no_minute_is_cut_and_escaped() {
    let ran = run_with(&["board", PAPER], b"s\xff\x1b[31m\n\0\n-\n");
    assert_eq!(ran.out, "0  HOLDS 0\n");
    assert_eq!(
        ran.err,
        "fasunqir board: line 1, column 1: 's\u{fffd}\\u{1b}[31m' is no signal: they are s0 to s15\n\
         fasunqir board: line 2, column 1: '\\0' is no signal: they are s0 to s15\n"
    );
    let long = board(PAPER, &("x".repeat(3000) + "\n"));
    assert!(long.err.len() < 200, "{}", long.err);
}

#[test]
fn a_folder_as_standard_input_is_told() {
    let folder = fs::File::open("/").unwrap();
    let ended = command(&["board", PAPER]).stdin(folder).output().unwrap();
    assert_eq!(ended.status.code(), Some(2));
    let said = String::from_utf8_lossy(&ended.stderr);
    assert!(said.starts_with("fasunqir board: standard input can't be read: "), "{said}");
}

/// A run on a terminal, with this typed.
fn on_a_terminal(sheet: &str, typed: &str) -> Option<String> {
    let line = format!("'{}' board {sheet}; echo \"status $?\"", env!("CARGO_BIN_EXE_fasunqir"));
    let started = Command::new("script")
        .args(["-qec", &line, "/dev/null"])
        .current_dir(root())
        .stdin(Stdio::piped())
        .stdout(Stdio::piped())
        .spawn();
    let Ok(mut child) = started else {
        eprintln!("not tried: no 'script' for a terminal");
        return None;
    };
    let mut keys = child.stdin.take().unwrap();
    keys.write_all(typed.as_bytes()).unwrap();
    let output = child.wait_with_output().unwrap();
    drop(keys);
    Some(String::from_utf8_lossy(&output.stdout).replace('\r', ""))
}

#[test]
fn a_terminal_is_asked_for_each_minute() {
    let Some(shown) = on_a_terminal(REPLY, "s2\ns0 s2\nundo\nquit\n") else { return };
    let at = |what: &str| shown.find(what).unwrap_or_else(|| panic!("no {what:?} in {shown}"));
    assert!(at("undo takes the last minute back") < at("minute 0 (s0-s2)> "));
    assert!(at("minute 0 (s0-s2)> ") < at("0  HOLDS 0\n"));
    assert!(at("0  HOLDS 0\n") < at("minute 1 (s0-s2)> "));
    assert!(
        at("1  HOLDS 0\nminute 2 (s0-s2)> ") < at("undone: 1 minute is left\nminute 1 (s0-s2)> ")
    );
    assert!(shown.ends_with("status 0\n"), "{shown}");
    // Ctrl-D
    let Some(shown) = on_a_terminal(PAPER, "s0\n\u{4}") else { return };
    assert!(shown.contains("0  BROKEN 0 0 0 0 0\n"), "{shown}");
    assert!(shown.contains("minute 1 (s0)> "), "{shown}");
    assert!(shown.ends_with("\nstatus 1\n"), "{shown}");
}
