//! The command `fasunqir`: files and minutes in, words out. Every verdict, byte and refusal that it
//! tells comes from the proved library; what it adds is reading files, words, and asking again.

mod arguments;
mod ask;
mod board;
mod explain;
mod grammar;
mod hints;
mod input;
mod output;
mod refused;
mod show;
mod tidy;
mod typing;

use arguments::{Arguments, Command};
use output::{say, Failure, Output, Status};
use std::process::ExitCode;

fn main() -> ExitCode {
    let status = Arguments::read(std::env::args_os().skip(1))
        .map_err(|misuse| {
            output::begin_messages_with(misuse.command);
            Failure::Message(misuse.why)
        })
        .and_then(|arguments| {
            output::begin_messages_with(arguments.command);
            run(&arguments)
        });
    match status {
        Ok(status) => status.into(),
        Err(Failure::Message(message)) => {
            say(&message);
            Status::Refused.into()
        }
        Err(Failure::Refused { .. }) => Status::Refused.into(),
    }
}

/// Does what was asked, up to the last byte of its output.
fn run(arguments: &Arguments) -> Result<Status, Failure> {
    let mut output = Output::new()?;
    let ended = match arguments.command {
        Command::Help => output.text(&arguments::help(arguments.about)),
        Command::Version => output.text(&format!("fasunqir {}\n", env!("CARGO_PKG_VERSION"))),
        Command::Check => ask::check(arguments, &mut output),
        Command::Explain => explain::explain(arguments, &mut output),
        Command::Board => board::board(arguments, &mut output),
        Command::Store => ask::store(arguments, &mut output),
        Command::Show => show::show(arguments, &mut output),
        Command::Table => ask::table(arguments, &mut output),
        Command::Formula => ask::formula(arguments, &mut output),
    };
    let status = match ended {
        Err(Failure::Refused { number, words }) => refuse(arguments, &mut output, number, &words),
        ended => ended,
    }?;
    output.end()?;
    Ok(status)
}

/// The line of a refusal, where the command's answer is a line, and the words beside it. What writes
/// bytes or text writes none of them.
fn refuse(
    arguments: &Arguments,
    output: &mut Output,
    number: u8,
    words: &[String],
) -> Result<Status, Failure> {
    if let Command::Check | Command::Explain | Command::Board = arguments.command {
        output.line(&format!("REFUSED {number}"))?;
        output.end()?;
    }
    words.iter().for_each(|message| say(message));
    Ok(Status::Refused)
}
