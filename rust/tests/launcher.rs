//! The launcher in the root, beside a prover and a `cargo` that only count their calls.

mod command;

use command::{root, Ran, Scratch};
use std::fs;
use std::os::unix::fs::{symlink, PermissionsExt};
use std::os::unix::process::CommandExt;
use std::path::{Path, PathBuf};
use std::process::{Command, Stdio};
use std::time::{Duration, Instant};

/// What the launcher calls, beside the prover and cargo.
const TOOLS: [&str; 22] = [
    "sh",
    "cat",
    "chmod",
    "cksum",
    "cp",
    "cut",
    "dirname",
    "find",
    "flock",
    "mkdir",
    "mv",
    "readlink",
    "rm",
    "sed",
    "sha256sum",
    "sleep",
    "sort",
    "tail",
    "tar",
    "tee",
    "true",
    "wc",
];

/// Reads what it is given, counts its call, and says what a prover says. It waits where it is told to.
const PROVER: &str = r#"#!/bin/sh
[ "$1" != version ] || exec cat "$SAID/version"
cat >/dev/null
echo "rt $*" >>"$SAID/calls"
[ "${PWD##*/crates/}" = exports ] || exit 3
echo "rt: chose --jobs 2 for low"
echo "crate low: modules loaded=12 checked=3"
echo "logic=proved functions=1 sum=0"
while [ -e "$SAID/slow" ]; do sleep 1; done
[ ! -e "$SAID/edited" ] || cat "$SAID/edited" >"../../$(cat "$SAID/edits")"
if [ -e "$SAID/unproved" ]; then echo "rt: the library high did not build"; exit 1; fi
echo "crate high: modules loaded=15 checked=0"
echo "logic=proved functions=2 sum=0"
echo "crate exports: modules loaded=18 checked=0"
echo "logic=proved functions=3 sum=0"
mkdir -p out ../low/out
cat ../low/src | tee ../low/out/kept >out/libexports.a
"#;

/// Builds a command that tells what it was made from and how it was run, and ends with status 1.
const CARGO: &str = r#"#!/bin/sh
cat >/dev/null
echo "cargo $1" >>"$SAID/calls"
while [ "$1" != --manifest-path ]; do shift; done
manifest=$2
while [ "$1" != --target-dir ]; do shift; done
[ ! -e "$SAID/unbuilt" ] || { echo "error: no command"; exit 101; }
mkdir -p "$2/release"
{
    echo '#!/bin/sh'
    echo "echo '$(cat "$FASUNQIR_LIB_DIR/libexports.a") $(cat "${manifest%/*}/src/lib.rs")'"
    echo 'pwd; for word; do echo "<$word>"; done; cat; exit 1'
} >"$2/release/fasunqir"
chmod +x "$2/release/fasunqir"
"#;

/// A repository with the launcher, and the tools that it finds.
struct Place {
    scratch: Scratch,
}

impl Place {
    fn new(name: &str) -> Place {
        let place = Place { scratch: Scratch::new(&format!("launcher-{name}")) };
        for folder in [
            "office/crates/low",
            "office/crates/exports",
            "office/rust/src",
            "tools",
            "said",
            "home",
            "cache",
        ] {
            fs::create_dir_all(place.path(folder)).unwrap();
        }
        fs::copy(root().join("fasunqir"), place.path("office/fasunqir")).unwrap();
        place.write("office/crates.txt", "low:\nhigh: low\nexports staticlib: low high\n");
        place.write("office/crates/low/src", "proved-1");
        place.write("office/rust/src/lib.rs", "rust-1");
        for file in ["Cargo.toml", "Cargo.lock", "build.rs"] {
            place.write(&format!("office/rust/{file}"), file);
        }
        for tool in TOOLS {
            if let Some(found) = found(tool) {
                symlink(found, place.path("tools").join(tool)).unwrap();
            }
        }
        place.write("said/version", "kit 1\n");
        place.write("said/calls", "");
        place.script("tools/rt", PROVER);
        place.script("tools/cargo", CARGO);
        for folder in ["said", "said/calls", "cache"] {
            fs::set_permissions(place.path(folder), fs::Permissions::from_mode(0o777)).unwrap();
        }
        place
    }

    fn path(&self, name: &str) -> PathBuf {
        self.scratch.folder().join(name)
    }

    fn write(&self, name: &str, text: &str) {
        fs::write(self.path(name), text).unwrap();
    }

    fn script(&self, name: &str, text: &str) {
        self.write(name, text);
        fs::set_permissions(self.path(name), fs::Permissions::from_mode(0o755)).unwrap();
    }

    fn remove(&self, name: &str) {
        fs::remove_file(self.path(name)).unwrap();
    }

    /// Any program, run where the launcher's own run would be.
    fn program(&self, program: impl AsRef<Path>) -> Command {
        let mut command = Command::new(program.as_ref());
        command
            .env_clear()
            .env("PATH", self.path("tools"))
            .env("HOME", self.path("home"))
            .env("XDG_CACHE_HOME", self.path("cache"))
            .env("SAID", self.path("said"))
            .current_dir(self.path("home"))
            .stdin(Stdio::null())
            .stdout(Stdio::piped())
            .stderr(Stdio::piped());
        command
    }

    fn launcher(&self) -> Command {
        self.program(self.path("office/fasunqir"))
    }

    fn run(&self) -> Ran {
        ran(self.launcher())
    }

    /// The calls of the prover and of cargo since this was last asked.
    fn calls(&self) -> Vec<String> {
        let calls = fs::read_to_string(self.path("said/calls")).unwrap();
        self.write("said/calls", "");
        calls.lines().map(str::to_string).collect()
    }

    /// Waits until the prover is at work.
    fn await_prover(&self) {
        await_that("the prover is called", || {
            fs::read_to_string(self.path("said/calls")).unwrap().contains("rt lib")
        });
    }

    /// What is in the folder of what was built.
    fn made(&self) -> Vec<String> {
        let mut names: Vec<String> = fs::read_dir(self.path("office/target/command"))
            .unwrap()
            .map(|entry| entry.unwrap().file_name().into_string().unwrap())
            .collect();
        names.sort();
        names
    }
}

/// Where a tool is.
fn found(tool: &str) -> Option<PathBuf> {
    let path = std::env::var_os("PATH")?;
    std::env::split_paths(&path).map(|folder| folder.join(tool)).find(|file| file.is_file())
}

fn await_that(what: &str, is_so: impl Fn() -> bool) {
    let start = Instant::now();
    while !is_so() {
        assert!(start.elapsed() < Duration::from_secs(60), "{what}: not within a minute");
        std::thread::sleep(Duration::from_millis(20));
    }
}

fn ran(mut command: Command) -> Ran {
    ended(command.output().unwrap())
}

fn ended(output: std::process::Output) -> Ran {
    Ran {
        status: output.status.code().unwrap_or(-1),
        out: String::from_utf8_lossy(&output.stdout).into_owned(),
        err: String::from_utf8_lossy(&output.stderr).into_owned(),
        bytes: output.stdout,
    }
}

/// What the built command says first.
fn first(ran: &Ran) -> &str {
    ran.out.lines().next().unwrap_or("")
}

const BOTH: [&str; 2] = ["rt lib", "cargo build"];
const BUILDING: &str =
    "fasunqir: the library is proved and built; this takes some minutes\nfasunqir: the command is built\n";

#[test]
fn builds_once_and_runs_as_it_was_called() {
    let place = Place::new("once");
    let mut launcher = place.launcher();
    launcher.args(["check", "a sheet", "", "*"]);
    let first = ran(launcher);
    let home = fs::canonicalize(place.path("home")).unwrap();
    assert_eq!(
        first.out,
        format!("proved-1 rust-1\n{}\n<check>\n<a sheet>\n<>\n<*>\n", home.display())
    );
    assert_eq!((first.status, first.err.as_str()), (1, BUILDING));
    assert_eq!(place.calls(), BOTH);
    let second = place.run();
    assert_eq!((second.status, second.err.as_str()), (1, ""));
    assert!(place.calls().is_empty());
}

#[test]
fn builds_by_content_and_not_by_time() {
    let place = Place::new("content");
    assert_eq!(first(&place.run()), "proved-1 rust-1");
    place.calls();

    for file in ["office/crates.txt", "office/crates/low/src", "office/rust/src/lib.rs"] {
        let file = fs::File::options().append(true).open(place.path(file)).unwrap();
        file.set_modified(std::time::SystemTime::now() + Duration::from_secs(1000)).unwrap();
    }
    assert_eq!(place.run().err, "");
    assert!(place.calls().is_empty());

    // of another content and older than what was built
    place.write("office/rust/src/lib.rs", "rust-2");
    let file = fs::File::options().append(true).open(place.path("office/rust/src/lib.rs")).unwrap();
    file.set_modified(std::time::SystemTime::UNIX_EPOCH).unwrap();
    assert_eq!(first(&place.run()), "proved-1 rust-2");
    assert_eq!(place.calls(), ["cargo build"]);

    place.write("office/crates/low/src", "proved-2");
    assert_eq!(first(&place.run()), "proved-2 rust-2");
    assert_eq!(place.calls(), BOTH);

    // a file more, one less, and another prover
    place.write("office/rust/src/new.rs", "");
    assert_eq!(first(&place.run()), "proved-2 rust-2");
    place.remove("office/rust/src/new.rs");
    assert_eq!(first(&place.run()), "proved-2 rust-2");
    assert_eq!(place.calls(), ["cargo build"; 2]);
    place.write("said/version", "kit 2\n");
    assert_eq!(first(&place.run()), "proved-2 rust-2");
    assert_eq!(place.calls(), BOTH);
    assert_eq!(place.made().len(), 3, "a library, a command and the lock: {:?}", place.made());
}

#[test]
fn passes_standard_input_on() {
    let place = Place::new("input");
    place.write("minutes", "s0\n-\n");
    for _ in 0..2 {
        let mut launcher = place.launcher();
        launcher.stdin(fs::File::open(place.path("minutes")).unwrap());
        assert!(ran(launcher).out.ends_with("\ns0\n-\n"));
    }
}

#[test]
fn a_second_run_waits_and_says_so() {
    let place = Place::new("waits");
    place.write("said/slow", "");
    let builds = place.launcher().spawn().unwrap();
    place.await_prover();
    let said = place.path("said/second");
    let mut second = place.launcher();
    second.stderr(fs::File::create(&said).unwrap());
    let waits = second.spawn().unwrap();
    let word = "fasunqir: another run is building; this one waits for it\n";
    await_that("the second run waits", || fs::read_to_string(&said).unwrap() == word);
    place.remove("said/slow");
    let (builds, waits) = (builds.wait_with_output().unwrap(), waits.wait_with_output().unwrap());
    assert_eq!(first(&ended(builds)), "proved-1 rust-1");
    assert_eq!(first(&ended(waits)), "proved-1 rust-1");
    assert_eq!(fs::read_to_string(&said).unwrap(), word);
    assert_eq!(place.calls(), BOTH);
}

#[test]
fn what_fails_is_shown_and_nothing_older_is_run() {
    let place = Place::new("fails");
    place.run();
    place.calls();
    for (file, what, log, said) in [
        (
            "said/unproved",
            "the library isn't proved",
            "library.log",
            "rt: the library high did not build",
        ),
        ("said/unbuilt", "the command isn't built", "command.log", "error: no command"),
    ] {
        place.write("office/crates/low/src", "proved-2");
        place.write(file, "");
        for _ in 0..2 {
            let failed = place.run();
            assert_eq!((failed.status, failed.out.as_str()), (2, ""));
            assert!(
                failed.err.contains(&format!("\n{said}\nfasunqir: {what}; ")),
                "{}",
                failed.err
            );
            let log = fs::canonicalize(place.path("office/target/log").join(log)).unwrap();
            assert!(failed.err.ends_with(&format!("{} has all that was said\n", log.display())));
            assert!(fs::read_to_string(log).unwrap().contains(said));
        }
        place.remove(file);
    }
    assert_eq!(first(&place.run()), "proved-2 rust-1");
}

#[test]
fn sources_that_change_meanwhile_are_told() {
    let word = "fasunqir: the sources were changed while they were built; run it again\n";
    let place = Place::new("meanwhile");
    let changed = |file: &str, content: &str| {
        place.write("said/edits", file);
        place.write("said/edited", content);
        let changed = place.run();
        place.remove("said/edited");
        assert_eq!((changed.status, changed.out.as_str()), (2, ""));
        assert!(changed.err.ends_with(word), "{}", changed.err);
        place.calls()
    };
    // what was proved is not taken for the library of the crates as they were
    assert_eq!(changed("crates/low/src", "proved-2"), BOTH);
    place.write("office/crates/low/src", "proved-1");
    assert_eq!(changed("rust/src/lib.rs", "rust-2"), BOTH);
    assert_eq!(first(&place.run()), "proved-1 rust-2");
    assert_eq!(place.calls(), BOTH);
}

#[test]
fn without_a_tool_it_runs_what_there_is() {
    for tool in ["rt", "cargo"] {
        let place = Place::new(&format!("missing-{tool}"));
        fs::rename(place.path("tools").join(tool), place.path("kept")).unwrap();
        let none = place.run();
        let word = format!(
            "fasunqir: '{tool}' is not on the PATH, and no command is built yet; README.md says what is needed\n"
        );
        assert_eq!((none.status, none.out.as_str(), none.err), (2, "", word));
        fs::rename(place.path("kept"), place.path("tools").join(tool)).unwrap();
        place.run();
        place.calls();

        place.remove(&format!("tools/{tool}"));
        place.write("office/rust/src/lib.rs", "rust-2");
        let older = place.run();
        let word = format!(
            "fasunqir: '{tool}' is not on the PATH, so this is the command as it was last built, \
             whatever has changed since\n"
        );
        assert_eq!(
            (older.status, first(&older), older.err.as_str()),
            (1, "proved-1 rust-1", word.as_str())
        );
        assert!(place.calls().is_empty());
    }
}

#[test]
fn finds_cargo_in_the_home_folder() {
    let place = Place::new("home");
    fs::create_dir_all(place.path("home/.cargo/bin")).unwrap();
    fs::rename(place.path("tools/cargo"), place.path("home/.cargo/bin/cargo")).unwrap();
    assert_eq!(first(&place.run()), "proved-1 rust-1");
}

#[test]
fn works_through_links() {
    let place = Place::new("links");
    symlink("../office", place.path("home/folder")).unwrap();
    symlink("folder/fasunqir", place.path("home/near")).unwrap();
    symlink(place.path("home/near"), place.path("cache/far")).unwrap();
    for link in ["home/near", "cache/far", "home/folder/fasunqir"] {
        assert_eq!(first(&ran(place.program(place.path(link)))), "proved-1 rust-1");
    }
    let mut by_path = place.program("sh");
    by_path.args(["-c", "PATH=$PATH:$PWD; near"]);
    assert_eq!(first(&ran(by_path)), "proved-1 rust-1");
    assert_eq!(place.calls(), BOTH);
}

#[test]
fn a_closed_standard_output_is_told() {
    let place = Place::new("closed");
    let mut closed = place.program("sh");
    closed.args(["-c", "../office/fasunqir --help >&-"]);
    let closed = ran(closed);
    assert_eq!((closed.status, closed.err.as_str()), (2, "fasunqir: standard output is closed\n"));
}

/// Ends with Ctrl-C's signal all that a run has started.
fn interrupt(run: &std::process::Child) {
    let group = format!("-{}", run.id());
    assert!(Command::new("kill").args(["-s", "INT", "--", &group]).status().unwrap().success());
}

/// Whether whoever started the tests had Ctrl-C ignored, and with it all that they start.
fn ignores_interrupts() -> bool {
    let status = fs::read_to_string("/proc/self/status").unwrap_or_default();
    let ignored = status.lines().find_map(|line| line.strip_prefix("SigIgn:"));
    ignored.is_some_and(|mask| u64::from_str_radix(mask.trim(), 16).is_ok_and(|mask| mask & 2 != 0))
}

#[test]
fn an_interrupted_run_leaves_nothing() {
    if ignores_interrupts() {
        eprintln!("not tried: interrupts are ignored here");
        return;
    }
    let place = Place::new("interrupted");
    place.write("said/slow", "");
    let builds = place.launcher().process_group(0).spawn().unwrap();
    place.await_prover();
    let waits = place.launcher().process_group(0).spawn().unwrap();
    std::thread::sleep(Duration::from_millis(500));
    // the one that waits leaves the other's work alone
    interrupt(&waits);
    assert_eq!(ended(waits.wait_with_output().unwrap()).status, 2);
    assert_eq!(place.made(), ["lock", "new"]);
    interrupt(&builds);
    let interrupted = ended(builds.wait_with_output().unwrap());
    assert_eq!((interrupted.status, interrupted.out.as_str()), (2, ""));
    assert_eq!(place.made(), ["lock"]);
    place.remove("said/slow");
    place.calls();
    let later = place.run();
    assert_eq!((first(&later), later.err.as_str()), ("proved-1 rust-1", BUILDING));
    assert_eq!(place.calls(), BOTH);
}

/// A run of somebody who can't write the repository; none where there is no such user.
fn run_by_another(place: &Place) -> Option<Ran> {
    let by_root = fs::metadata(place.path("office")).ok().map(|found| {
        use std::os::unix::fs::MetadataExt;
        found.uid() == 0
    })?;
    if !by_root {
        return Some(place.run());
    }
    let mut run = place.program(found("setpriv")?);
    run.args(["--reuid=65534", "--regid=65534", "--clear-groups"])
        .arg(place.path("office/fasunqir"));
    Some(ran(run))
}

#[test]
fn a_repository_that_cannot_be_written_is_built_elsewhere() {
    let place = Place::new("read-only");
    place.run();
    place.calls();
    let set = |mode: &str| {
        let status = Command::new("chmod").args(["-R", mode]).arg(place.path("office")).status();
        assert!(status.unwrap().success());
    };
    set("a-w,a+rX");
    let Some(current) = run_by_another(&place) else {
        eprintln!("not tried: no setpriv to run it as another user");
        return;
    };
    assert_eq!((first(&current), current.err.as_str()), ("proved-1 rust-1", ""));
    assert_eq!(fs::read_dir(place.path("cache")).unwrap().count(), 0);

    set("u+w");
    place.write("office/crates/low/src", "proved-2");
    fs::create_dir_all(place.path("office/rust/target/large")).unwrap();
    for content in ["proved-2", "proved-3"] {
        set("a-w,a+rX");
        let built = run_by_another(&place).unwrap();
        assert_eq!(first(&built), format!("{content} rust-1"), "{}", built.err);
        assert!(built.err.contains("can't be written, so it is copied to "), "{}", built.err);
        assert_eq!(place.calls(), BOTH);
        assert_eq!(run_by_another(&place).unwrap().err, "");
        assert!(place.calls().is_empty());
        set("u+w");
        place.write("office/crates/low/src", "proved-3");
    }
    let copies: Vec<_> = fs::read_dir(place.path("cache/fasunqir")).unwrap().flatten().collect();
    assert_eq!(copies.len(), 1);
    assert!(!copies[0].path().join("rust/target").exists());
}

#[test]
fn a_terminal_is_told_which_crate_is_proved() {
    let Some(script) = found("script") else {
        eprintln!("not tried: no 'script' for a terminal");
        return;
    };
    let place = Place::new("terminal");
    let mut run = place.program(script);
    run.arg("-qec").arg(place.path("office/fasunqir")).arg("/dev/null").env("SHELL", "/bin/sh");
    let ran = ran(run);
    let crates: Vec<_> =
        ran.out.split('\r').filter(|line| line.contains("proving crate")).collect();
    let said = |k: usize| format!("fasunqir: proving crate {k} of 3");
    assert_eq!(crates.len(), 3, "{}", ran.out);
    assert!((0..3).all(|k| crates[k].starts_with(&said(k + 1))), "{}", ran.out);
    assert!(ran.out.contains("proved-1 rust-1"), "{}", ran.out);
}
