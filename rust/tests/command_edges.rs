//! The command where files, arguments, input or output are not what they should be.

mod command;

use command::{command, root, run, run_with, Ran, Scratch};
use std::ffi::OsStr;
use std::fs::{self, File};
use std::io::Write;
use std::os::unix::ffi::OsStrExt;
use std::process::{Command, Output, Stdio};

const SHEET: &str = "examples/reply/sheet.txt";
const TRACE: &str = "examples/reply/late.hex";

/// The commands, each with files that it answers.
const ANSWERED: [&[&str]; 7] = [
    &["check", SHEET, TRACE],
    &["explain", SHEET, TRACE],
    &["board", SHEET],
    &["store", SHEET],
    &["show", SHEET],
    &["table", SHEET, TRACE, "1", "1"],
    &["formula", SHEET],
];

const COMMANDS: [&str; 7] = ["check", "explain", "board", "store", "show", "table", "formula"];

fn ended(output: Output) -> Ran {
    Ran {
        status: output.status.code().unwrap_or(-1),
        out: String::from_utf8_lossy(&output.stdout).into_owned(),
        err: String::from_utf8_lossy(&output.stderr).into_owned(),
        bytes: output.stdout,
    }
}

/// A line of the shell, in which `"$0"` is the command.
fn shell(line: &str) -> Ran {
    let command = env!("CARGO_BIN_EXE_fasunqir");
    let shell = Command::new("sh")
        .args(["-c", line, command])
        .current_dir(root())
        .stdin(Stdio::null())
        .output();
    ended(shell.unwrap())
}

/// No answer: status 2, nothing on standard output, and a message that begins so.
#[track_caller]
fn told(ran: &Ran, begins: &str) {
    assert!(ran.err.starts_with(begins), "{begins:?} was expected: {ran:?}");
    assert_eq!((ran.status, ran.out.as_str()), (2, ""), "{}", ran.err);
    assert!(!ran.err.contains("panicked"), "{}", ran.err);
}

#[test]
fn help_and_version_are_everywhere() {
    let helped = |arguments: &[&str], begins: &str| {
        let ran = run(arguments);
        assert!(ran.out.starts_with(begins), "{arguments:?}: {}", ran.out);
        assert_eq!((ran.status, ran.err.as_str()), (0, ""), "{arguments:?}");
    };
    for word in ["--help", "-h", "help"] {
        helped(&[word], "usage: fasunqir COMMAND ");
    }
    for command in COMMANDS {
        let begins = format!("usage: fasunqir {command} ");
        for word in ["--help", "-h"] {
            helped(&[command, word], &begins);
            helped(&[word, command], &begins);
            helped(&[command, "no-file", "none", word], &begins);
            helped(&[command, "--advice", word], &begins);
        }
        helped(&["help", command], &begins);
        helped(&[command, "--version"], "fasunqir 0.");
    }
    for word in ["--version", "-V", "version"] {
        helped(&[word], "fasunqir 0.");
    }
    assert!(run(&["board", "-h"]).out.contains("'undo' takes back\nthe last minute"));
}

#[test]
fn misuse_is_told_by_the_command_that_was_typed() {
    told(&run(&[]), "fasunqir: what is to be done?\nusage: fasunqir COMMAND ");
    told(&run(&["checks"]), "fasunqir: 'checks' is nothing it can do; ");
    told(&run(&["--tidy"]), "fasunqir: '--tidy' is nothing it can do; ");
    told(&run(&["check"]), "fasunqir check: it takes SHEET TRACE; ");
    told(&run(&["check", SHEET]), "fasunqir check: it takes SHEET TRACE; ");
    told(&run(&["board", SHEET, TRACE]), "fasunqir board: it takes SHEET; ");
    told(&run(&["check", "--ascii", SHEET, TRACE]), "fasunqir check: it has no option '--ascii'; ");
    told(&run(&["check", "-t", SHEET, TRACE]), "fasunqir check: it has no option '-t'; ");
    told(
        &run(&["check", "--tidy=yes", SHEET, TRACE]),
        "fasunqir check: --tidy takes nothing after it; ",
    );
    told(
        &run(&["formula", SHEET, "--advice"]),
        "fasunqir formula: --advice needs a number after it; ",
    );
    told(
        &run(&["formula", SHEET, "--advice", "1,x"]),
        "fasunqir formula: '1,x' after --advice is no number",
    );
    told(
        &run(&["formula", SHEET, "--advice=-1"]),
        "fasunqir formula: '-1' after --advice is no number; ",
    );
    told(
        &run(&["formula", SHEET, "--advice", "2"]),
        "fasunqir formula: --advice 2: the sheet's clauses are 0 to 1\n",
    );
    told(&run(&["store", "-s", "1,2", SHEET]), "fasunqir store: -s takes one number; ");
    told(&run(&["table", SHEET, TRACE, "1", "one"]), "fasunqir table: 'one' is no number ");
    told(
        &run(&["check", "-", "-"]),
        "fasunqir check: standard input, '-', can be read once only; ",
    );
    for huge in ["18446744073709551616", "99999999999999999999999"] {
        told(&run(&["formula", SHEET, "--advice", huge]), "fasunqir formula: '");
    }
}

#[test]
fn arguments_need_not_be_text() {
    let ran = |arguments: &[&[u8]]| {
        let arguments = arguments.iter().map(|word| OsStr::from_bytes(word));
        ended(command(&[]).args(arguments).stdin(Stdio::null()).output().unwrap())
    };
    told(&ran(&[b"\xff"]), "fasunqir: '\u{fffd}' is nothing it can do; ");
    told(&ran(&[b"check", b"-\xff"]), "fasunqir check: it has no option '-\u{fffd}'; ");
    told(
        &ran(&[b"formula", b"--advice", b"\xff", b"x"]),
        "fasunqir formula: '\u{fffd}' after --advice",
    );
    told(
        &ran(&[b"formula", b"no\xff\x1b[31m\nfile"]),
        "fasunqir formula: no\u{fffd}\\u{1b}[31m\\nfile: it can't be read: ",
    );
    told(&ran(&[b"formula", &[b'x'; 5000]]), "fasunqir formula: xxx");

    let scratch = Scratch::new("edges-names");
    let name = scratch.folder().join(OsStr::from_bytes(b"sheet\xff"));
    fs::copy(root().join(SHEET), &name).unwrap();
    let checked = ran(&[b"check", name.as_os_str().as_bytes(), TRACE.as_bytes()]);
    assert_eq!((checked.status, checked.out.as_str()), (1, "BROKEN 1 2 7 7 0\n"));
}

#[test]
fn after_two_dashes_come_files() {
    let scratch = Scratch::new("edges-dashes");
    fs::copy(root().join(SHEET), scratch.folder().join("--help")).unwrap();
    fs::copy(root().join(TRACE), scratch.folder().join("-h")).unwrap();
    let checked = command(&["check", "--", "--help", "-h"]).current_dir(scratch.folder()).output();
    assert_eq!(ended(checked.unwrap()).out, "BROKEN 1 2 7 7 0\n");
}

#[test]
fn files_that_cannot_be_read_are_told() {
    let scratch = Scratch::new("edges-files");
    let folder = scratch.folder().to_str().unwrap();
    for arguments in ANSWERED {
        let name = arguments[0];
        for (file, why) in [
            ("no-such-file", "it can't be read: No such file or directory"),
            (folder, "it can't be read: Is a directory"),
            ("/dev/zero", "it has more than 1048576 bytes, which no sheet or trace has"),
            ("/proc/self/mem", "it can't be read: "),
            ("", "it can't be read: No such file or directory"),
        ] {
            let shown = if file.is_empty() { "''" } else { file };
            let begins = format!("fasunqir {name}: {shown}: {why}");
            // each file in turn
            for place in 1..arguments.len().min(3) {
                let mut arguments = arguments.to_vec();
                arguments[place] = file;
                told(&run(&arguments), &begins);
            }
        }
    }
}

#[test]
fn a_file_without_permission_is_told() {
    use std::os::unix::fs::PermissionsExt;
    let scratch = Scratch::new("edges-permission");
    let sheet = scratch.file("sheet", "1 0\nrequire anti(<s0>:)\n");
    fs::set_permissions(&sheet, fs::Permissions::from_mode(0o000)).unwrap();
    if File::open(&sheet).is_ok() {
        eprintln!("not tried: nothing is unreadable to this user");
        return;
    }
    let begins = format!("fasunqir formula: {sheet}: it can't be read: Permission denied");
    told(&run(&["formula", &sheet]), &begins);
}

#[test]
fn a_missing_terminal_is_told() {
    let started = Command::new("setsid")
        .arg(env!("CARGO_BIN_EXE_fasunqir"))
        .args(["formula", "/dev/tty"])
        .stdin(Stdio::null())
        .output();
    let Ok(output) = started else {
        eprintln!("not tried: no 'setsid'");
        return;
    };
    told(&ended(output), "fasunqir formula: /dev/tty: it can't be read: ");
}

#[test]
fn pipes_and_standard_input_are_read() {
    let scratch = Scratch::new("edges-pipes");
    let broken = |ran: &Ran| assert_eq!((ran.status, ran.out.as_str()), (1, "BROKEN 1 2 7 7 0\n"));
    let (sheet, trace) =
        (fs::read(root().join(SHEET)).unwrap(), fs::read(root().join(TRACE)).unwrap());
    broken(&run_with(&["check", "-", TRACE], &sheet));
    broken(&run_with(&["check", SHEET, "-"], &trace));
    broken(&run_with(&["check", "/dev/stdin", TRACE], &sheet));
    let fifo = scratch.folder().join("fifo");
    assert!(Command::new("mkfifo").arg(&fifo).status().unwrap().success());
    let writer = std::thread::spawn({
        let fifo = fifo.clone();
        move || File::options().write(true).open(fifo).unwrap().write_all(&sheet)
    });
    broken(&run(&["check", fifo.to_str().unwrap(), TRACE]));
    writer.join().unwrap().unwrap();
    // an endless one is not read to its end
    let mut endless = command(&["check", "-", TRACE]);
    let endless = endless.stdin(File::open("/dev/zero").unwrap()).output().unwrap();
    told(&ended(endless), "fasunqir check: standard input: it has more than 1048576 bytes");
    // a closed one has nothing
    assert_eq!(shell(&format!("\"$0\" board {SHEET} <&-")).status, 0);
}

#[test]
fn output_that_cannot_be_written_is_told() {
    let mut asked: Vec<Vec<&str>> = ANSWERED.iter().map(|words| words.to_vec()).collect();
    asked.extend([vec!["--help"], vec!["--version"], vec!["check", "--help"]]);
    asked.push(vec!["check", "examples/paper/trace.hex", TRACE]); // refused
    for arguments in &asked {
        let words = arguments.join(" ");
        let name = if words.contains("--") {
            "fasunqir".to_string()
        } else {
            format!("fasunqir {}", arguments[0])
        };
        let begins = format!("{name}: standard output can't be written: ");
        let line = |redirected: &str| shell(&format!("echo s2 | \"$0\" {words} {redirected}"));
        told(&line(">/dev/full"), &(begins.clone() + "No space left on device"));
        // open for reading only
        told(&line("1</dev/null"), &(begins.clone() + "Bad file descriptor"));

        let (reader, writer) = std::io::pipe().unwrap();
        drop(reader);
        let (minutes, mut typed) = std::io::pipe().unwrap();
        typed.write_all(b"s2\n").unwrap();
        drop(typed);
        let unread =
            command(arguments).stdin(minutes).stdout(writer).stderr(Stdio::piped()).spawn();
        let unread = ended(unread.unwrap().wait_with_output().unwrap());
        told(&unread, &(begins + "Broken pipe"));
    }
}

#[test]
fn a_closed_or_full_standard_error_changes_nothing() {
    for redirected in ["2>&-", "2>/dev/full"] {
        assert_eq!(shell(&format!("\"$0\" check {SHEET} no-such-file {redirected}")).status, 2);
        let closed = shell(&format!("printf 's5\\ns2\\n' | \"$0\" board {SHEET} {redirected}"));
        assert_eq!((closed.status, closed.out.as_str()), (2, "-  REFUSED 21\n0  HOLDS 0\n"));
    }
}

#[test]
fn no_file_is_made() {
    let scratch = Scratch::new("edges-made");
    let (sheet, trace) = (root().join(SHEET), root().join(TRACE));
    for arguments in ANSWERED {
        let arguments: Vec<&OsStr> = arguments
            .iter()
            .map(|&word| match word {
                SHEET => sheet.as_os_str(),
                TRACE => trace.as_os_str(),
                word => OsStr::new(word),
            })
            .collect();
        let mut child = command(&[])
            .args(&arguments)
            .current_dir(scratch.folder())
            .env("TMPDIR", scratch.folder())
            .env("HOME", scratch.folder())
            .stdin(Stdio::piped())
            .stdout(Stdio::piped())
            .spawn()
            .unwrap();
        child.stdin.take().unwrap().write_all(b"s2\n").ok();
        assert!(child.wait_with_output().unwrap().status.code() < Some(2), "{arguments:?}");
    }
    assert_eq!(fs::read_dir(scratch.folder()).unwrap().count(), 0);
}
