//! What the command writes: answers to standard output, words beside them to standard error.

use crate::arguments::Command;
use std::fs::File;
use std::io::{self, BufWriter, Write};
use std::os::fd::AsFd;
use std::process::ExitCode;
use std::sync::OnceLock;

/// How the command ends.
#[derive(Clone, Copy, Debug, PartialEq, Eq)]
pub enum Status {
    /// HOLDS or EXCUSED, or what was asked for was written.
    Well,
    /// BROKEN.
    Broken,
    /// REFUSED, or no answer.
    Refused,
}

impl From<Status> for ExitCode {
    fn from(status: Status) -> ExitCode {
        match status {
            Status::Well => ExitCode::from(0),
            Status::Broken => ExitCode::from(1),
            Status::Refused => ExitCode::from(2),
        }
    }
}

/// Why there is no answer.
#[derive(Debug)]
pub enum Failure {
    /// For standard error.
    Message(String),
    /// The library refuses by this number. Words beside it, for standard error.
    Refused { number: u8, words: Vec<String> },
}

impl Failure {
    pub fn refused(error: fasunqir::Error, words: Vec<String>) -> Failure {
        Failure::Refused { number: error.number(), words }
    }
}

static COMMAND: OnceLock<String> = OnceLock::new();

/// From here on each message begins with the command that was typed.
pub fn begin_messages_with(command: Command) {
    COMMAND.get_or_init(|| match command.word() {
        "" => "fasunqir".to_string(),
        word => format!("fasunqir {word}"),
    });
}

/// A message on standard error, its further lines indented by whoever writes them. Where standard
/// error is closed nobody can be told.
pub fn say(message: &str) {
    let command = COMMAND.get().map_or("fasunqir", String::as_str);
    let _ = writeln!(io::stderr(), "{command}: {message}");
}

/// What somebody else wrote, cut and without control characters, to be put into a message.
pub fn escaped(text: &str, most: usize) -> String {
    let mut shown = String::new();
    for (count, c) in text.chars().enumerate() {
        if count == most {
            return shown + "...";
        }
        match c {
            '\t' => shown.push(' '),
            '\'' | '"' | '\\' => shown.push(c),
            _ => shown.extend(c.escape_debug()),
        }
    }
    shown
}

/// Words with commas and an "and" between them.
pub fn listed(words: &[String]) -> String {
    match words {
        [first @ .., last] if !first.is_empty() => format!("{} and {last}", first.join(", ")),
        _ => words.concat(),
    }
}

/// `clause 1`, `clauses 1 and 2`, `clauses 0, 1 and 2`.
pub fn numbered(what: &str, numbers: &[usize]) -> String {
    let words: Vec<_> = numbers.iter().map(usize::to_string).collect();
    let several = if numbers.len() == 1 { "" } else { "s" };
    format!("{what}{several} {}", listed(&words))
}

/// Standard output, which may be full or closed. It is written as a file, since `Stdout` takes what
/// can't be written there at all for written.
pub struct Output {
    out: BufWriter<File>,
}

impl Output {
    pub fn new() -> Result<Output, Failure> {
        let out = io::stdout().as_fd().try_clone_to_owned().map_err(no_output)?;
        Ok(Output { out: BufWriter::new(out.into()) })
    }

    pub fn bytes(&mut self, bytes: &[u8]) -> Result<Status, Failure> {
        self.out.write_all(bytes).map(|()| Status::Well).map_err(no_output)
    }

    pub fn text(&mut self, text: &str) -> Result<Status, Failure> {
        self.bytes(text.as_bytes())
    }

    /// A line, with its end.
    pub fn line(&mut self, line: &str) -> Result<Status, Failure> {
        self.text(line)?;
        self.text("\n")
    }

    /// What was written so far is there for its reader.
    pub fn end(&mut self) -> Result<(), Failure> {
        self.out.flush().map_err(no_output)
    }
}

fn no_output(error: io::Error) -> Failure {
    Failure::Message(format!("standard output can't be written: {error}"))
}
