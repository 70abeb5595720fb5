//! Minutes as they come. Each has its line before the next is read.

use crate::arguments::Arguments;
use crate::output::{say, Failure, Output, Status};
use crate::{ask, input, tidy};
use fasunqir::{read_minute, Board, Error, Finding, Sheet, Verdict, CYCLES};
use std::io::{self, BufRead, IsTerminal, Read};

/// Bytes of a line, at most. A minute as people type it has under eighty.
const LONGEST: u64 = 4096;

/// Bytes that are passed over, at most, until a longer line ends. What goes on has no lines.
const PASSED_OVER: u64 = 1 << 20;

const HELP: &str =
    "a minute is a line: the signals that are high, as in 's0 s2', or - where none is;
    undo takes the last minute back, and quit, end or Ctrl-D ends";

pub fn board(arguments: &Arguments, output: &mut Output) -> Result<Status, Failure> {
    if arguments.files[0] == "-" {
        let why = "the sheet can't be '-', since standard input has the minutes";
        return Err(Failure::Message(why.to_string()));
    }
    let given = input::sheet(&arguments.files[0], arguments)?;
    let mut offer = Offer::open(&given.sheet);
    let mut lines = Lines { input: io::stdin().lock(), read: 0 };
    let asks = io::stdin().is_terminal() && io::stdout().is_terminal();
    if asks {
        say(HELP);
    }
    loop {
        if asks {
            output.text(&offer.prompt())?;
            output.end()?;
        }
        match lines.next()? {
            None => {
                if asks {
                    output.line("")?;
                }
                return Ok(offer.status());
            }
            Some(Line::TooLong) => offer.leave_out(&format!(
                "line {}: it has more than {LONGEST} bytes, which no minute has",
                lines.read
            )),
            Some(Line::Bytes(bytes)) => {
                for text in texts(bytes, lines.read, arguments.tidy) {
                    if offer.take_line(lines.read, &text, output)? == Then::End {
                        return Ok(offer.status());
                    }
                }
            }
        }
    }
}

/// The text of a line, mended where that is asked for; mending may leave none.
fn texts(mut bytes: Vec<u8>, number: usize, mends: bool) -> Vec<String> {
    if mends {
        let (mended, what) = tidy::minutes(&bytes);
        what.iter().for_each(|what| say(&format!("line {number}: mended: {what}")));
        bytes = mended;
    }
    String::from_utf8_lossy(&bytes).lines().map(str::to_string).collect()
}

/// What a line asks for after it.
#[derive(Clone, Copy, Debug, PartialEq, Eq)]
enum Then {
    Next,
    End,
}

/// An open offer and its minutes so far.
struct Offer {
    signals: usize,
    board: Board,
    /// The board as it was before each minute that it took, so that the minute can be taken back.
    before: Vec<Board>,
    /// Whether a line was no minute, or a minute was refused.
    left_out: bool,
}

impl Offer {
    fn open(sheet: &Sheet) -> Offer {
        let board = Board::open(sheet);
        Offer { signals: sheet.signals(), board, before: vec![], left_out: false }
    }

    /// The minute that comes next, and the signals that it can have.
    fn prompt(&self) -> String {
        let signals = match self.signals {
            1 => "s0".to_string(),
            count => format!("s0-s{}", count - 1),
        };
        format!("minute {} ({signals})> ", self.before.len())
    }

    /// The status goes by the last verdict, if nothing was left out.
    fn status(&self) -> Status {
        match self.board.verdict() {
            _ if self.left_out => Status::Refused,
            Some(verdict) => ask::status(verdict.finding),
            None => Status::Well,
        }
    }

    /// A line of standard input: a word of the command, a minute or a comment.
    fn take_line(
        &mut self,
        number: usize,
        text: &str,
        output: &mut Output,
    ) -> Result<Then, Failure> {
        let word = text.split('#').next().unwrap_or("").trim().to_ascii_lowercase();
        match word.as_str() {
            "quit" | "end" => return Ok(Then::End),
            "help" => say(HELP),
            "undo" => self.undo(number),
            _ => match read_minute(text) {
                Ok(Some(cycle)) => self.take(number, cycle, output)?,
                Ok(None) => {}
                Err(fault) => self.leave_out(&format!(
                    "line {number}, column {}: {}",
                    fault.column + 1,
                    fault.why
                )),
            },
        }
        Ok(Then::Next)
    }

    /// Takes a minute, or tells why the library refused it. The line comes before the words.
    fn take(&mut self, number: usize, cycle: u16, output: &mut Output) -> Result<(), Failure> {
        let mut board = self.board.clone();
        match board.feed(cycle) {
            Ok(verdict) => {
                let minute = self.before.len();
                write_line(output, &minute.to_string(), &verdict.to_string())?;
                if let Some(sentence) = settled(self.board.verdict(), verdict) {
                    say(&format!("minute {minute}: {sentence}"));
                }
                self.before.push(std::mem::replace(&mut self.board, board));
            }
            Err(error) => {
                write_line(output, "-", &format!("REFUSED {}", error.number()))?;
                self.leave_out(&format!("line {number}: {}", found(error, cycle, self.signals)));
            }
        }
        Ok(())
    }

    /// Tells why a line was left out.
    fn leave_out(&mut self, why: &str) {
        self.left_out = true;
        say(why);
    }

    /// Takes back the last minute that was taken: the board is again what the library gave before.
    fn undo(&mut self, number: usize) {
        let Some(board) = self.before.pop() else {
            return self
                .leave_out(&format!("line {number}: undo: there is no minute to take back"));
        };
        self.board = board;
        say(&match self.before.len() {
            0 => "undone: no minute is left".to_string(),
            1 => "undone: 1 minute is left".to_string(),
            left => format!("undone: {left} minutes are left"),
        });
    }
}

fn write_line(output: &mut Output, minute: &str, answer: &str) -> Result<(), Failure> {
    output.line(&format!("{minute:<3}{answer}"))?;
    output.end()
}

/// What the first BROKEN and the first EXCUSED settle. After BROKEN comes no HOLDS and after EXCUSED
/// nothing else (`Board::feed`), so the verdict before tells whether it is the first.
fn settled(before: Option<Verdict>, now: Verdict) -> Option<&'static str> {
    let before = before.map(|verdict| verdict.finding);
    match (before, now.finding) {
        (Some(Finding::Broken(_)), Finding::Broken(_)) => None,
        (_, Finding::Broken(_)) => Some(
            "closed: a commitment is broken, and no later minute mends it; only a failing \
             assumption can still excuse it",
        ),
        (Some(Finding::Excused { .. }), Finding::Excused { .. }) => None,
        (_, Finding::Excused { .. }) => {
            Some("final: an assumption failed, and no later minute changes that; EXCUSED stays")
        }
        _ => None,
    }
}

/// The refusal of a minute, with what was found in it.
fn found(error: Error, cycle: u16, signals: usize) -> String {
    match error.number() {
        21 => {
            let set: Vec<_> =
                (signals..16).filter(|k| cycle >> k & 1 == 1).map(|k| format!("s{k}")).collect();
            let are = if set.len() == 1 { "is" } else { "are" };
            let has = match signals {
                1 => "signal s0 alone".to_string(),
                count => format!("signals s0 to s{}", count - 1),
            };
            format!("21: {} {are} set, and the sheet has {has}", set.join(", "))
        }
        22 => format!("22: {CYCLES} minutes are taken already"),
        _ => error.to_string(),
    }
}

enum Line {
    /// With its end, if it has one.
    Bytes(Vec<u8>),
    TooLong,
}

/// Lines, none of which fills the memory.
struct Lines<Input> {
    input: Input,
    read: usize,
}

impl<Input: BufRead> Lines<Input> {
    fn next(&mut self) -> Result<Option<Line>, Failure> {
        let mut bytes = vec![];
        self.up_to(LONGEST + 1).read_until(b'\n', &mut bytes).map_err(unread)?;
        if bytes.is_empty() {
            return Ok(None);
        }
        self.read += 1;
        if bytes.len() as u64 <= LONGEST || bytes.ends_with(b"\n") {
            return Ok(Some(Line::Bytes(bytes)));
        }
        let passed_over = self.up_to(PASSED_OVER).skip_until(b'\n').map_err(unread)?;
        if passed_over as u64 == PASSED_OVER {
            let most = LONGEST + PASSED_OVER;
            let why =
                format!("line {} goes on after {most} bytes: these are no minutes", self.read);
            return Err(Failure::Message(why));
        }
        Ok(Some(Line::TooLong))
    }

    fn up_to(&mut self, bytes: u64) -> io::Take<&mut Input> {
        self.input.by_ref().take(bytes)
    }
}

fn unread(error: io::Error) -> Failure {
    Failure::Message(format!("standard input can't be read: {error}"))
}
