//! README.md's commands: where a line of an indented block begins with `$ `, what follows it in the block
//! is what the command writes, on standard output and standard error.

mod command;

use command::root;
use std::process::Command;

/// The indented blocks of a text, without their indentation. A block goes over empty lines.
fn blocks(text: &str) -> Vec<Vec<&str>> {
    let mut blocks: Vec<Vec<&str>> = vec![vec![]];
    for line in text.lines() {
        match line.strip_prefix("    ") {
            Some(line) => blocks.last_mut().unwrap().push(line),
            None if line.is_empty() => blocks.last_mut().unwrap().push(""),
            None => blocks.push(vec![]),
        }
    }
    blocks
}

/// The commands of a block, each with the lines that it writes.
fn commands(block: &[&str]) -> Vec<(String, String)> {
    let mut found: Vec<(String, String)> = vec![];
    for line in block {
        if let Some(command) = line.strip_prefix("$ ") {
            found.push((command.to_string(), String::new()));
        } else if let Some((_, written)) = found.last_mut() {
            written.push_str(line);
            written.push('\n');
        }
    }
    found
}

#[test]
fn commands_write_what_the_readme_says() {
    let readme = std::fs::read_to_string(root().join("README.md")).unwrap();
    let mut run = 0;
    for (command, written) in blocks(&readme).iter().flat_map(|block| commands(block)) {
        let built = command.replace("./fasunqir", env!("CARGO_BIN_EXE_fasunqir"));
        let script = format!("{{ {built}\n}} 2>&1");
        let output = Command::new("sh").args(["-c", &script]).current_dir(root()).output().unwrap();
        let found = String::from_utf8(output.stdout).unwrap();
        assert_eq!(found.trim_end(), written.trim_end(), "{command}");
        run += 1;
    }
    assert!(run >= 10, "{run} commands");
}

/// Every file of the repository that a command or a table of README.md names is there. What is built, in
/// a crate's out/, is no file of the repository.
#[test]
fn files_are_there() {
    let readme = std::fs::read_to_string(root().join("README.md")).unwrap();
    let mut named = 0;
    for word in readme.split(|c: char| !(c.is_ascii_alphanumeric() || "./_-".contains(c))) {
        let path = word.trim_end_matches(['.', '/']);
        let folders = ["examples/", "runs/", "docs/", "crates/"];
        if folders.iter().any(|folder| path.starts_with(folder)) && !path.contains("/out/") {
            assert!(root().join(path).exists(), "{path}");
            named += 1;
        }
    }
    assert!(named >= 30, "{named} files");
}
