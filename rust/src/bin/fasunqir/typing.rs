//! Typing mistakes: where a typed sheet that the library refused goes wrong, and what could stand there.
//! The library is asked again of single lines, under lines that are known to be good; what is told of a
//! line is told only where it refuses that line.

use crate::grammar::{self, is_blank, Clause, Said, Stop, Wants};
use crate::hints::{hint, Hint};
use crate::output::escaped;
use fasunqir::{bytes, Error};
use std::iter;

/// Characters of a line that are shown, at most.
const WIDTH: usize = 120;

/// Lines that are told, at most.
const TOLD: usize = 10;

/// A first line and a clause line that are in the grammar; the first allows every signal and name.
const FIRST: &[u8] = b"16 3";
const CLAUSE: &[u8] = b"require anti(<true>:)";

const MARK: &[u8] = b"\xef\xbb\xbf";

/// A place in a text: its line, counted from 1, its column, counted from 0, what is wrong, and the line
/// with a caret under the column.
pub fn pointed(number: usize, column: usize, why: &str, line: &str) -> String {
    let place = format!("line {number}, column {}: {why}", column + 1);
    if line.trim().is_empty() {
        return place;
    }
    let (shown, before) = window(line, column);
    format!("{place}\n    {shown}\n    {}^", " ".repeat(before))
}

/// As much of a line around a column as is shown, and how many characters stand before the column.
fn window(line: &str, column: usize) -> (String, usize) {
    let first = column.saturating_sub(WIDTH);
    let shown: Vec<String> = line
        .chars()
        .skip(first)
        .take(2 * WIDTH + 1)
        .map(|c| escaped(c.encode_utf8(&mut [0; 4]), 1))
        .collect();
    let width = |k: usize| shown[k].chars().count();
    let at = (column - first).min(shown.len());
    let (mut from, mut to, mut all) = (at, at, 0);
    loop {
        let before = (from, to);
        if to < shown.len() && all + width(to) <= WIDTH {
            all += width(to);
            to += 1;
        }
        if from > 0 && all + width(from - 1) <= WIDTH {
            from -= 1;
            all += width(from);
        }
        if before == (from, to) {
            break;
        }
    }
    let left = if first + from > 0 { "..." } else { "" };
    let right = if to < shown.len() { "..." } else { "" };
    let before = left.len() + (from..at).map(width).sum::<usize>();
    (format!("{left}{}{right}", shown[from..to].concat()), before)
}

/// Lines by their numbers, in words: "line 3", "lines 1, 3 to 5 and 9".
pub fn lines(numbers: &[usize]) -> String {
    let mut runs: Vec<(usize, usize)> = vec![];
    for &number in numbers {
        match runs.last_mut() {
            Some((_, last)) if *last + 1 == number => *last = number,
            _ => runs.push((number, number)),
        }
    }
    let more = runs.len().saturating_sub(8);
    runs.truncate(8);
    let mut words: Vec<String> = runs
        .into_iter()
        .flat_map(|(first, last)| match last - first {
            0 => vec![first.to_string()],
            1 => vec![first.to_string(), last.to_string()],
            _ => vec![format!("{first} to {last}")],
        })
        .collect();
    if more > 0 {
        words.push("others".to_string());
    }
    let plural = if numbers.len() == 1 { "line" } else { "lines" };
    match words.split_last() {
        Some((last, [])) => format!("{plural} {last}"),
        Some((last, others)) => format!("{plural} {} and {last}", others.join(", ")),
        None => "no line".to_string(),
    }
}

/// The faults of a typed sheet that the library refused.
pub fn faults(name: &str, text: &[u8], error: Error) -> Vec<String> {
    let text = Text::new(text);
    let mut found = match error.number() {
        4 => text.counts(),
        6 | 9 => text.fields(),
        18 => text.depth(),
        19 => text.outside(),
        20 => text.sizes(),
        _ => vec![],
    };
    if found.is_empty() {
        found.push(error.to_string());
    }
    found.into_iter().map(|fault| format!("{name}: {fault}")).collect()
}

/// The number by which the library refuses a text of these lines.
fn refused(lines: &[&[u8]]) -> Option<u8> {
    let text: Vec<u8> = lines.iter().flat_map(|line| line.iter().chain(b"\n")).copied().collect();
    bytes::read_text(&text).err().map(Error::number)
}

/// A line without its end, and without a carriage return before it.
struct Line<'t> {
    /// Counted from 1.
    number: usize,
    bytes: &'t [u8],
    returned: bool,
    ended: bool,
}

impl Line<'_> {
    fn is_empty(&self) -> bool {
        self.bytes.iter().all(is_blank)
    }

    /// A fault at a byte of the line.
    fn fault(&self, at: usize, why: &str) -> String {
        let column = String::from_utf8_lossy(&self.bytes[..at]).chars().count();
        pointed(self.number, column, why, &String::from_utf8_lossy(self.bytes))
    }

    /// A fault of the line, its place unknown.
    fn fault_somewhere(&self, why: &str) -> String {
        let shown = escaped(&String::from_utf8_lossy(self.bytes), WIDTH);
        format!("line {}: {why}\n    {shown}", self.number)
    }

    /// Why it is outside the grammar, as a first line or as a clause line.
    fn outside(&self, first: bool) -> String {
        let stop = match stop(self.bytes, first) {
            Some(Stop { wants: Wants::Unknown, .. }) | None => {
                return self.fault_somewhere("it is outside the grammar");
            }
            Some(stop) => stop,
        };
        let left = |line: &[u8]| left(line, first);
        match hint(self.bytes, &stop, &left) {
            Some(Hint { at, why }) => self.fault(at, &why),
            None => self.fault(stop.at, &expected(self.bytes, &stop)),
        }
    }
}

/// Where a line can't go on, as a first line or as a clause line.
fn stop(line: &[u8], first: bool) -> Option<Stop> {
    if first {
        grammar::counts(line).err()
    } else {
        grammar::clause(line).err()
    }
}

/// How many bytes of a line are left where it can't go on; all of them where the library refuses what
/// seems good.
fn left(line: &[u8], first: bool) -> Option<usize> {
    match stop(line, first) {
        Some(stop) => Some(line.len() - stop.at),
        None => is_outside(line, first).then_some(line.len()),
    }
}

/// Whether a line has the word that a clause line begins with.
fn has_role(line: &[u8]) -> bool {
    let has = |role: &[u8]| line.windows(role.len()).any(|word| word.eq_ignore_ascii_case(role));
    has(b"assume") || has(b"require")
}

/// Whether the library refuses a line as outside the grammar, or too deep.
fn is_outside(line: &[u8], first: bool) -> bool {
    let number = if first { refused(&[line, CLAUSE]) } else { refused(&[FIRST, line]) };
    matches!(number, Some(18 | 19))
}

/// What could stand where a line stops, and what does.
fn expected(line: &[u8], stop: &Stop) -> String {
    match (&stop.wants, stop.wants.words()) {
        (Wants::Wrong(why), _) => why.clone(),
        (_, Some(wanted)) if stop.at == line.len() || line[stop.at..].iter().all(is_blank) => {
            format!("the line ends here; expected {wanted}")
        }
        (_, Some(wanted)) => {
            format!("{} stands here; expected {wanted}", found(&line[stop.at..]))
        }
        (_, None) => "it can't go on here".to_string(),
    }
}

/// The word, number, sign or character that a text begins with.
fn found(text: &[u8]) -> String {
    let lettered = text.iter().position(|byte| !byte.is_ascii_alphanumeric());
    let length = match lettered.unwrap_or(text.len()) {
        0 => grammar::sign(text).len(),
        length => length,
    };
    match text[0] {
        b' '..=b'~' => format!("'{}'", escaped(&String::from_utf8_lossy(&text[..length]), 20)),
        byte @ (..b' ' | 127) => format!("byte {byte}"),
        byte => {
            let few = &text[..text.len().min(4)];
            match few.utf8_chunks().next().and_then(|chunk| chunk.valid().chars().next()) {
                Some(c) => {
                    format!("'{}' (U+{:04X})", escaped(c.encode_utf8(&mut [0; 4]), 1), c as u32)
                }
                None => format!("byte {byte} (no character)"),
            }
        }
    }
}

struct Text<'t> {
    marked: bool,
    lines: Vec<Line<'t>>,
}

impl<'t> Text<'t> {
    fn new(text: &'t [u8]) -> Text<'t> {
        let rest = text.strip_prefix(MARK);
        let line = |(before, line): (usize, &'t [u8])| {
            let bytes = line.strip_suffix(b"\n").unwrap_or(line);
            let ended = bytes.len() < line.len();
            let bare = bytes.strip_suffix(b"\r").filter(|_| ended).unwrap_or(bytes);
            Line { number: before + 1, bytes: bare, returned: bare.len() < bytes.len(), ended }
        };
        let lines = rest.unwrap_or(text).split_inclusive(|&byte| byte == b'\n');
        Text { marked: rest.is_some(), lines: lines.enumerate().map(line).collect() }
    }

    /// The line that is to have the counts: the first that has any, where no clause line comes before it,
    /// or else the first that isn't empty.
    fn first(&self) -> usize {
        let clause = self.lines.iter().position(|line| has_role(line.bytes));
        let before = &self.lines[..clause.unwrap_or(self.lines.len())];
        let counts = before.iter().position(|line| grammar::counts(line.bytes).is_ok());
        let said = || self.lines.iter().position(|line| !line.is_empty());
        counts.or_else(said).unwrap_or(0)
    }

    /// The lines that are outside the grammar, up to ten.
    fn outside(&self) -> Vec<String> {
        let mut told = vec![];
        let first = self.first();
        let counted = self.lines.get(first).is_some_and(|line| grammar::counts(line.bytes).is_ok());
        if !counted && !self.lines.iter().any(|line| has_role(line.bytes)) {
            if self.are_minutes() {
                return vec!["its lines are minutes, and a sheet is wanted here".to_string()];
            }
            let why = "taken as a typed sheet: it is neither stored bytes nor hexadecimal";
            told.push(why.to_string());
        }
        if self.marked {
            told.push("a byte-order mark stands before line 1; --tidy takes it away".to_string());
        }
        let (mut count, mut next) = (0, 0);
        while let Some(line) = self.lines.get(next) {
            if count == TOLD {
                told.push(format!("line {} and those after it were not looked at", line.number));
                break;
            }
            let (fault, after) = self.fault_at(next, first);
            count += usize::from(fault.is_some());
            told.extend(fault);
            next = after;
        }
        let returned: Vec<usize> =
            self.lines.iter().filter(|line| line.returned).map(|line| line.number).collect();
        if !returned.is_empty() {
            told.push(format!(
                "{}: a carriage return stands before the line end, as some mail programs put it; \
                 --tidy takes it away",
                lines(&returned)
            ));
        }
        if let Some(line) = self.lines.last().filter(|line| !line.ended && !line.is_empty()) {
            let why = "the last line has no line end; --tidy puts it there";
            told.push(line.fault(line.bytes.len(), why));
        }
        told
    }

    /// The fault of a line, if it has one, and the line to go on with. `first` is the line of the counts.
    fn fault_at(&self, index: usize, first: usize) -> (Option<String>, usize) {
        let line = &self.lines[index];
        if line.is_empty() {
            let why = if line.ended {
                "it is empty, and a sheet has no empty lines; --tidy takes it out"
            } else {
                "blanks stand after the last line end; --tidy takes them away"
            };
            return (Some(format!("line {}: {why}", line.number)), index + 1);
        }
        // What stands before the counts is no clause line either.
        let is_first = index <= first;
        if !is_outside(line.bytes, is_first) {
            return (None, index + 1);
        }
        if let Some(last) = self.broken_over(index).filter(|_| !is_first) {
            let why = format!(
                "the clause goes on in line {}, and must stand in one line",
                self.lines[index + 1].number
            );
            let end = line.bytes.iter().rposition(|byte| !is_blank(byte)).map_or(0, |at| at + 1);
            return (Some(line.fault(end, &why)), last + 1);
        }
        (Some(line.outside(is_first)), index + 1)
    }

    /// The last of the lines that a clause is broken over, as mail programs break long lines.
    fn broken_over(&self, index: usize) -> Option<usize> {
        let stop = stop(self.bytes_at(index), false)?;
        if !self.bytes_at(index)[stop.at..].iter().all(is_blank) {
            return None;
        }
        let mut joined = self.bytes_at(index).to_vec();
        let further = index + 1..self.lines.len().min(index + 5);
        further.take_while(|&next| grammar::clause(self.bytes_at(next)).is_err()).find(|&next| {
            joined.extend(iter::once(&b' ').chain(self.bytes_at(next)));
            grammar::clause(&joined).is_ok() && !is_outside(&joined, false)
        })
    }

    fn bytes_at(&self, index: usize) -> &'t [u8] {
        self.lines[index].bytes
    }

    fn are_minutes(&self) -> bool {
        let minute = |line: &Line| {
            std::str::from_utf8(line.bytes).is_ok_and(|line| fasunqir::read_minute(line).is_ok())
        };
        self.lines.iter().all(minute)
    }

    /// Where a 33rd round bracket is opened.
    fn depth(&self) -> Vec<String> {
        let mut open = 0;
        for line in &self.lines {
            let earlier = open;
            for (at, byte) in line.bytes.iter().enumerate() {
                match byte {
                    b'(' => open += 1,
                    b')' if open > 0 => open -= 1,
                    _ => {}
                }
                if open == 33 {
                    let left = match earlier {
                        0 => String::new(),
                        left => format!("; {left} are left open by earlier lines"),
                    };
                    let why = "a 33rd round bracket is opened, and 32 may be open at a place";
                    return vec![line.fault(at, &format!("{why}{left}"))];
                }
            }
        }
        vec![]
    }

    /// The line that brings the 65th node, or the ninth clause.
    fn sizes(&self) -> Vec<String> {
        let mut nodes = 0;
        for (clause, line) in self.lines.iter().skip(1).enumerate() {
            if clause == 8 {
                let clauses = self.lines.len() - 1;
                let why = format!("the ninth of {clauses} clauses, and a sheet has at most 8");
                return vec![line.fault(0, &why)];
            }
            let to_here: Vec<&[u8]> =
                self.lines[..clause + 2].iter().map(|line| line.bytes).collect();
            let Ok(said) = grammar::clause(line.bytes) else { return vec![] };
            if refused(&to_here) == Some(20) {
                let last = 64usize.checked_sub(nodes).and_then(|k| said.nodes.get(k));
                let Some(&at) = last else { return vec![] };
                let why = "the 65th node, and a sheet has at most 64: each signal, name, true and \
                           false is one, each piece, joiner, '!' and star another";
                return vec![line.fault(at, why)];
            }
            nodes += said.nodes.len();
        }
        vec![]
    }

    /// Counts of the first line that are out of range, or no clause line.
    fn counts(&self) -> Vec<String> {
        let Some(line) = self.lines.first() else { return vec![] };
        if refused(&[line.bytes, CLAUSE]) != Some(4) {
            let why = "no clause line follows the first line";
            return vec![line.fault(line.bytes.len(), why)];
        }
        let Ok(counts) = grammar::counts(line.bytes) else { return vec![] };
        let is_wrong = |first: String| refused(&[first.as_bytes(), CLAUSE]) == Some(4);
        let mut told = vec![];
        if is_wrong(format!("{} 0", counts.signals)) {
            let why = format!("{} signals, and a sheet has 1 to 16", counts.signals);
            told.push(line.fault(counts.signals_at, &why));
        }
        if is_wrong(format!("1 {}", counts.names)) {
            let why = format!("{} names, and a sheet has 0 to 3", counts.names);
            told.push(line.fault(counts.names_at, &why));
        }
        told
    }

    /// The lines that are refused under the first line, each by itself, up to ten.
    fn fields(&self) -> Vec<String> {
        let Some((first, clauses)) = self.lines.split_first() else { return vec![] };
        let Ok(counts) = grammar::counts(first.bytes) else { return vec![] };
        let fault = |line: &Line| {
            let number = refused(&[first.bytes, line.bytes])?;
            let said = grammar::clause(line.bytes).ok()?;
            let found = match number {
                6 => out_of_range(&said, counts),
                9 => not_listed(&said, counts),
                _ => None,
            };
            Some(match found {
                Some((at, why)) => line.fault(at, &why),
                None => line.fault_somewhere(&format!("it is refused by {number}")),
            })
        };
        clauses.iter().filter_map(fault).take(TOLD).collect()
    }
}

/// What there is of something, in words: "s0 to s2", "u0 alone", "none".
fn those(letter: char, count: usize) -> String {
    match count {
        0 => "has none".to_string(),
        1 => format!("has {letter}0 alone"),
        _ => format!("has {letter}0 to {letter}{}", count - 1),
    }
}

/// The first word of a clause that is out of range under the counts: refusal 6.
fn out_of_range(clause: &Clause, counts: grammar::Counts) -> Option<(usize, String)> {
    let (signals, names) = (those('s', counts.signals), those('u', counts.names));
    clause.words.iter().find_map(|word| {
        let why = match word.said {
            Said::Signal(k) if k >= counts.signals => {
                format!("s{k} is none of the signals: by its first line the sheet {signals}")
            }
            Said::Name(u) if u >= counts.names => {
                format!("u{u} is none of the names: by its first line the sheet {names}")
            }
            Said::Symbol(q) if q > 7 => format!("{q} is no symbol: they are 0 to 7"),
            Said::Gap(least, most) if least > most => {
                format!("a gap of {least} to {most}: its first number is larger than its second")
            }
            _ => return None,
        };
        Some((word.at, why))
    })
}

/// The first name of a clause that is listed and not there, or used and not listed: refusal 9.
fn not_listed(clause: &Clause, counts: grammar::Counts) -> Option<(usize, String)> {
    let names = those('u', counts.names);
    clause.words.iter().find_map(|word| {
        let part = word.part;
        let lists = |u| {
            clause.words.iter().any(|other| other.part == part && other.said == Said::Listed(u))
        };
        let why = match word.said {
            Said::Listed(u) if u >= counts.names => {
                format!("u{u} is none of the names: by its first line the sheet {names}")
            }
            Said::Name(u) if !lists(u) => {
                format!("part {part} uses u{u} and doesn't list it after its colon")
            }
            _ => return None,
        };
        Some((word.at, why))
    })
}
