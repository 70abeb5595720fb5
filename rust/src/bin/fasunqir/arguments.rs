//! What was typed after `fasunqir`.

use crate::output::escaped;
use std::ffi::OsString;

#[derive(Clone, Copy, Debug, PartialEq, Eq)]
pub enum Command {
    Help,
    Version,
    Check,
    Explain,
    Board,
    Store,
    Show,
    Table,
    Formula,
}

impl Command {
    const ASKED: [Command; 7] = [
        Command::Check,
        Command::Explain,
        Command::Board,
        Command::Store,
        Command::Show,
        Command::Table,
        Command::Formula,
    ];

    /// The word that asks for it.
    pub fn word(self) -> &'static str {
        match self {
            Command::Help | Command::Version => "",
            Command::Check => "check",
            Command::Explain => "explain",
            Command::Board => "board",
            Command::Store => "store",
            Command::Show => "show",
            Command::Table => "table",
            Command::Formula => "formula",
        }
    }

    /// What stands after the word.
    fn takes(self) -> &'static str {
        match self {
            Command::Help | Command::Version => "",
            Command::Check | Command::Explain => "SHEET TRACE",
            Command::Board | Command::Formula => "SHEET",
            Command::Store | Command::Show => "FILE",
            Command::Table => "SHEET TRACE CLAUSE PART, or -n NODE SHEET TRACE",
        }
    }

    fn says(self) -> &'static str {
        match self {
            Command::Help | Command::Version => "",
            Command::Check => "the verdict's line",
            Command::Explain => "the verdict's line, and what became of each clause, in words",
            Command::Board => "a line for each minute of standard input as it comes",
            Command::Store => {
                "the stored bytes of a typed sheet, of hexadecimal text or of minutes"
            }
            Command::Show => {
                "a stored sheet as text, a trace as minutes, a formula as it is written"
            }
            Command::Table => {
                "the intervals, in minutes, on which a part (from 1) of a clause (from 0) holds"
            }
            Command::Formula => "the stored formula of a sheet's requirement",
        }
    }

    /// The options that it takes, beside --help and --version.
    fn options(self) -> &'static [&'static str] {
        match self {
            Command::Help | Command::Version => &[],
            Command::Check | Command::Explain | Command::Board | Command::Formula => {
                &["--tidy", "--advice"]
            }
            Command::Store => &["--tidy", "--advice", "-s"],
            Command::Show => &["--tidy", "--advice", "-s", "--ascii"],
            Command::Table => &["--tidy", "--advice", "-n", "-u0", "-u1", "-u2"],
        }
    }
}

/// What each option is for, as --help tells it.
const OPTIONS: [(&str, &str, &str); 8] = [
    ("--tidy", "", "mend what mail programs do to a text, and say what was mended"),
    ("--advice", "K,K", "make these clauses advice, counted from 0"),
    ("-s", "N", "how many signals minutes have; else as many as they name"),
    ("--ascii", "", "plain letters for the signs of a formula"),
    ("-n", "NODE", "a node of the sheet instead of a part of a clause"),
    ("-u0", "N", "the minute that name u0 is put on"),
    ("-u1", "N", "the minute that name u1 is put on"),
    ("-u2", "N", "the minute that name u2 is put on"),
];

#[derive(Clone, Debug, PartialEq, Eq)]
pub struct Arguments {
    pub command: Command,
    /// Of --help: what it was asked about.
    pub about: Option<Command>,
    /// The files, in their order; `-` is standard input.
    pub files: Vec<OsString>,
    /// Of table: clause and part, as typed.
    pub numbers: Vec<usize>,
    pub tidy: bool,
    pub ascii: bool,
    pub advice: Vec<usize>,
    pub signals: Option<usize>,
    pub node: Option<usize>,
    pub minutes: [Option<usize>; 3],
}

/// What is wrong with the arguments of a command; of none that is known it is [`Command::Help`].
#[derive(Clone, Debug, PartialEq, Eq)]
pub struct Misuse {
    pub command: Command,
    pub why: String,
}

impl Arguments {
    /// The arguments, or what is wrong with them.
    pub fn read(words: impl Iterator<Item = OsString>) -> Result<Arguments, Misuse> {
        let words: Vec<OsString> = words.collect();
        let text = |word: &OsString| word.to_string_lossy().into_owned();
        let mut asked = Arguments {
            command: Command::Help,
            about: None,
            files: vec![],
            numbers: vec![],
            tidy: false,
            ascii: false,
            advice: vec![],
            signals: None,
            node: None,
            minutes: [None; 3],
        };
        let Some(first) = words.first().map(text) else {
            let why = format!("what is to be done?\n{}", help(None).trim_end());
            return Err(Misuse { command: Command::Help, why });
        };
        let command = Command::ASKED.into_iter().find(|command| command.word() == first);
        if let "--version" | "-V" | "version" = first.as_str() {
            return Ok(Arguments { command: Command::Version, ..asked });
        }
        if let "--help" | "-h" | "help" = first.as_str() {
            let about = words.get(1).map(text);
            asked.about = Command::ASKED.into_iter().find(|c| Some(c.word()) == about.as_deref());
            return Ok(asked);
        }
        let Some(command) = command else {
            let shown = escaped(&first, 40);
            let why = format!("'{shown}' is nothing it can do; 'fasunqir --help' tells what is");
            return Err(Misuse { command: Command::Help, why });
        };
        asked.command = command;
        let wrong = |why: String| {
            let why = format!("{why}; 'fasunqir {} --help' tells more", command.word());
            Err(Misuse { command, why })
        };
        // also where the word before it wants a number
        let options = words[1..].iter().map(text).take_while(|word| word != "--");
        if options.into_iter().any(|word| word == "--help" || word == "-h") {
            return Ok(Arguments { command: Command::Help, about: Some(command), ..asked });
        }

        let mut rest = words[1..].iter();
        let mut files_only = false;
        while let Some(word) = rest.next() {
            let typed = text(word);
            if files_only || typed == "-" || !typed.starts_with('-') {
                asked.files.push(word.clone());
                continue;
            }
            let (option, joined) = match typed.split_once('=') {
                Some((option, value)) => (option.to_string(), Some(value.to_string())),
                None => (typed, None),
            };
            match option.as_str() {
                "--" => files_only = true,
                "--version" | "-V" => return Ok(Arguments { command: Command::Version, ..asked }),
                option if !command.options().contains(&option) => {
                    return wrong(format!("it has no option '{}'", escaped(option, 40)));
                }
                "--tidy" | "--ascii" if joined.is_some() => {
                    return wrong(format!("{option} takes nothing after it"));
                }
                "--tidy" => asked.tidy = true,
                "--ascii" => asked.ascii = true,
                option => {
                    let Some(value) = joined.or_else(|| rest.next().map(text)) else {
                        return wrong(format!("{option} needs a number after it"));
                    };
                    let numbers: Option<Vec<usize>> =
                        value.split(',').map(|number| number.trim().parse().ok()).collect();
                    let Some(numbers) = numbers else {
                        return wrong(format!(
                            "'{}' after {option} is no number",
                            escaped(&value, 40)
                        ));
                    };
                    match (option, numbers[..].len()) {
                        ("--advice", _) => asked.advice.extend(numbers),
                        (_, 2..) => return wrong(format!("{option} takes one number")),
                        ("-s", _) => asked.signals = Some(numbers[0]),
                        ("-n", _) => asked.node = Some(numbers[0]),
                        (name, _) => {
                            asked.minutes[usize::from(name.as_bytes()[2] - b'0')] = Some(numbers[0])
                        }
                    }
                }
            }
        }

        let mut wanted = match command {
            Command::Check | Command::Explain => 2,
            Command::Table if asked.node.is_some() => 2,
            Command::Table => 4,
            _ => 1,
        };
        if asked.files.len() != wanted {
            return wrong(format!("it takes {}", command.takes()));
        }
        while wanted > 2 {
            wanted -= 1;
            let number = text(&asked.files.remove(2));
            let Ok(number) = number.parse() else {
                return wrong(format!(
                    "'{}' is no number of a clause or part",
                    escaped(&number, 40)
                ));
            };
            asked.numbers.push(number);
        }
        if asked.files.iter().filter(|file| *file == "-").count() > 1 {
            return wrong("standard input, '-', can be read once only".to_string());
        }
        Ok(asked)
    }
}

/// The text of --help.
pub fn help(about: Option<Command>) -> String {
    let mut text = String::new();
    match about {
        None => {
            text += "usage: fasunqir COMMAND ..., where COMMAND is one of\n\n";
            for command in Command::ASKED {
                text +=
                    &format!("  {:8} {:12} {}\n", command.word(), short(command), command.says());
            }
            text += "\n'fasunqir COMMAND --help' tells more of each.\n";
        }
        Some(command) => {
            text += &format!("usage: fasunqir {} {}\n\n", command.word(), command.takes());
            text += &format!("Gives {}.\n\n", command.says());
            for (option, value, what) in OPTIONS {
                if command.options().contains(&option) {
                    text += &format!("  {:12} {what}\n", format!("{option} {value}"));
                }
            }
            text += FILES;
            text += if command == Command::Board { MINUTES } else { STANDARD_INPUT };
        }
    }
    text += "\nThe status is 0 for HOLDS, EXCUSED and what was written, 1 for BROKEN, 2 for REFUSED or no answer.\n";
    text
}

/// What stands after the word, in short.
fn short(command: Command) -> &'static str {
    match command {
        Command::Table => "SHEET TRACE ...",
        command => command.takes(),
    }
}

const FILES: &str = "
A sheet is typed text, stored bytes or the same in hexadecimal with '#' comments. A trace is minutes
(a line each, the signals that are high, or '-'), stored bytes or hexadecimal.
";

const STANDARD_INPUT: &str = "'-' is standard input.\n";

const MINUTES: &str = "
Standard input has the minutes. Beside them it may have these words, each on a line: 'undo' takes back
the last minute that was taken, 'help' tells what can be typed, 'quit' or 'end' ends. Standard output
has a line for each minute, and what else is to be said is on standard error.
";
