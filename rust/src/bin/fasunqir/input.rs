//! Files in: stored bytes, hexadecimal text, typed sheets and minutes.

use crate::arguments::Arguments;
use crate::output::{escaped, say, Failure};
use crate::{refused, tidy, typing};
use fasunqir::{bytes, Formula, MinutesError, Role, Sheet, Trace};
use std::ffi::OsStr;
use std::fs::File;
use std::io::{self, Read};

/// Bytes that are read of a file, at most: more than any sheet or trace needs, in whatever form.
const MOST: usize = 1 << 20;

/// A file as it was read, and what messages call it.
pub struct Source {
    pub name: String,
    pub bytes: Vec<u8>,
}

impl Source {
    /// All of a file, a pipe or, for `-`, standard input.
    pub fn read(path: &OsStr) -> Result<Source, Failure> {
        let name = if path == "-" {
            "standard input".to_string()
        } else if path.is_empty() {
            "''".to_string()
        } else {
            escaped(&path.to_string_lossy(), 200)
        };
        let mut bytes = vec![];
        let most = MOST as u64 + 1;
        let read = if path == "-" {
            io::stdin().take(most).read_to_end(&mut bytes)
        } else {
            File::open(path).and_then(|file| file.take(most).read_to_end(&mut bytes))
        };
        match read {
            Err(error) => Err(Failure::Message(format!("{name}: it can't be read: {error}"))),
            Ok(count) if count > MOST => Err(Failure::Message(format!(
                "{name}: it has more than {MOST} bytes, which no sheet or trace has"
            ))),
            Ok(_) => Ok(Source { name, bytes }),
        }
    }

    /// A message about it.
    pub fn failure(&self, why: &str) -> Failure {
        Failure::Message(format!("{}: {why}", self.name))
    }

    /// Whether it is stored bytes: text has no control byte but blanks and line ends, and a stored sheet
    /// or trace has version byte 1.
    fn is_stored(&self) -> bool {
        self.bytes.iter().any(|byte| matches!(byte, 0..=8 | 14..=31))
    }

    /// What is outside comments.
    fn uncommented(&self) -> impl Iterator<Item = u8> + '_ {
        self.bytes.split(|&byte| byte == b'\n').flat_map(|line| {
            line.split(|&byte| byte == b'#').next().unwrap_or(&[]).iter().copied().chain([b'\n'])
        })
    }

    /// Whether it has a word that clauses begin with, in either case.
    fn has_clauses(&self) -> bool {
        let has =
            |word: &[u8]| self.bytes.windows(word.len()).any(|w| w.eq_ignore_ascii_case(word));
        has(b"assume") || has(b"require")
    }

    /// Whether a file that is no stored sheet is hexadecimal: outside comments it has nothing but digits,
    /// or it has a comment and no word of a typed sheet. Two decimal numbers are a first line.
    fn is_hexadecimal_sheet(&self) -> bool {
        if self.is_minutes() {
            return false;
        }
        if !self.bytes.contains(&b'#') {
            let mut words =
                self.bytes.split(u8::is_ascii_whitespace).filter(|word| !word.is_empty());
            let decimal =
                words.by_ref().take(2).filter(|w| w.iter().all(u8::is_ascii_digit)).count();
            if decimal == 2 && words.next().is_none() {
                return false;
            }
        }
        self.uncommented().all(|byte| byte.is_ascii_hexdigit() || byte.is_ascii_whitespace())
            || self.bytes.contains(&b'#') && !self.has_clauses()
    }

    /// Whether a file that is no stored trace is hexadecimal: what stands first is a digit, which no
    /// minute begins with, or there is nothing.
    fn is_hexadecimal_trace(&self) -> bool {
        let first = self.uncommented().find(|byte| !byte.is_ascii_whitespace());
        first.is_none_or(|byte| byte.is_ascii_hexdigit())
    }

    /// Whether a text is minutes: its first word outside comments is a signal or a dash, where a typed
    /// sheet has a number. What mail programs put before it doesn't count.
    fn is_minutes(&self) -> bool {
        let mended = Source { name: String::new(), bytes: tidy::minutes(&self.bytes).0 };
        let first = mended.uncommented().find(|byte| !byte.is_ascii_whitespace());
        matches!(first, Some(b's' | b'S' | b'-' | b','))
    }

    /// Its bytes where it is stored bytes or hexadecimal text, and none where it is other text.
    pub fn stored(&self) -> Result<Option<Vec<u8>>, Failure> {
        if self.is_stored() {
            Ok(Some(self.bytes.clone()))
        } else if self.is_hexadecimal_sheet() {
            self.by_hexadecimal().map(Some)
        } else {
            Ok(None)
        }
    }

    /// The bytes that hexadecimal text says: digits in pairs, blanks between pairs but not inside one.
    fn by_hexadecimal(&self) -> Result<Vec<u8>, Failure> {
        let mut bytes = vec![];
        for (number, line) in self.bytes.split(|&byte| byte == b'\n').enumerate() {
            let line = line.split(|&byte| byte == b'#').next().unwrap_or(&[]);
            for word in line.split(u8::is_ascii_whitespace) {
                let shown = escaped(&String::from_utf8_lossy(word), 20);
                let fault =
                    |why: &str| self.failure(&format!("line {}: '{shown}' {why}", number + 1));
                if !word.iter().all(u8::is_ascii_hexdigit) {
                    return Err(fault("is not hexadecimal, which the file is taken for"));
                }
                if word.len() % 2 == 1 {
                    return Err(fault("has a hexadecimal digit that is not in a pair"));
                }
                let digit = |byte: u8| (byte as char).to_digit(16).unwrap_or(0) as u8;
                bytes.extend(word.chunks_exact(2).map(|pair| 16 * digit(pair[0]) + digit(pair[1])));
            }
        }
        Ok(bytes)
    }
}

/// A sheet that was accepted, and its text where it was typed.
pub struct Given {
    pub sheet: Sheet,
    pub typed: Option<String>,
}

impl Given {
    /// A clause as it was typed, or as `show` has it.
    pub fn clause_line(&self, clause: usize) -> String {
        let typed = self.typed.as_ref().and_then(|text| text.lines().nth(clause + 1));
        typed.map_or_else(|| self.sheet.clause_line(clause), |line| line.trim().to_string())
    }
}

/// The sheet in a file of any form.
pub fn sheet(path: &OsStr, arguments: &Arguments) -> Result<Given, Failure> {
    sheet_from(Source::read(path)?, arguments)
}

pub fn sheet_from(source: Source, arguments: &Arguments) -> Result<Given, Failure> {
    let given = if source.is_stored() || source.is_hexadecimal_sheet() {
        let bytes = if source.is_stored() { source.bytes } else { source.by_hexadecimal()? };
        stored_sheet(bytes)?
    } else {
        typed_sheet(source, arguments)?
    };
    advised(given, arguments)
}

/// A sheet with the clauses turned to advice that `--advice` names.
fn advised(mut given: Given, arguments: &Arguments) -> Result<Given, Failure> {
    let clauses = given.sheet.clauses().len();
    for &clause in &arguments.advice {
        if clause >= clauses {
            let last = clauses - 1;
            return Err(Failure::Message(format!(
                "--advice {clause}: the sheet's clauses are 0 to {last}"
            )));
        }
        given.sheet = given.sheet.with_role(clause, Role::Advice);
    }
    Ok(given)
}

fn stored_sheet(bytes: Vec<u8>) -> Result<Given, Failure> {
    match Sheet::try_from(&bytes[..]) {
        Ok(sheet) => Ok(Given { sheet, typed: None }),
        Err(error) => Err(Failure::refused(error, vec![refused::sheet(error, &bytes)])),
    }
}

fn typed_sheet(source: Source, arguments: &Arguments) -> Result<Given, Failure> {
    let text = if arguments.tidy { tidied(&source, tidy::sheet) } else { source.bytes };
    let read = bytes::read_text(&text).and_then(Sheet::try_from);
    let lossy = String::from_utf8_lossy(&text).into_owned();
    match read {
        Ok(sheet) => Ok(Given { sheet, typed: Some(lossy) }),
        Err(error) => Err(Failure::refused(error, typing::faults(&source.name, &text, error))),
    }
}

/// A file's text, mended, with what was mended said.
fn tidied(source: &Source, mend: impl Fn(&[u8]) -> (Vec<u8>, Vec<String>)) -> Vec<u8> {
    let (text, mended) = mend(&source.bytes);
    for what in mended {
        say(&format!("{}: mended: {what}", source.name));
    }
    text
}

/// The trace for a sheet in a file of any form.
pub fn trace(path: &OsStr, sheet: &Sheet, arguments: &Arguments) -> Result<Trace, Failure> {
    let source = Source::read(path)?;
    if !source.is_stored() && source.has_clauses() {
        return Err(source.failure("it is a typed sheet, and a trace is wanted here"));
    }
    if source.is_stored() || source.is_hexadecimal_trace() {
        let bytes = if source.is_stored() { source.bytes } else { source.by_hexadecimal()? };
        return sheet.trace(&bytes).map_err(|error| {
            Failure::refused(error, vec![refused::trace(error, sheet.signals(), &bytes)])
        });
    }
    let cycles = minutes(&source, arguments)?;
    Trace::from_cycles(sheet.signals(), &cycles).map_err(|error| {
        Failure::refused(error, vec![refused::minutes(error, sheet.signals(), &cycles)])
    })
}

/// A trace by itself in a file of any form; minutes have as many signals as was asked for, or as they
/// name.
pub fn trace_alone(source: Source, arguments: &Arguments) -> Result<Trace, Failure> {
    if source.is_stored() || source.is_hexadecimal_trace() {
        let bytes = if source.is_stored() { source.bytes } else { source.by_hexadecimal()? };
        return stored_trace(&bytes);
    }
    let cycles = minutes(&source, arguments)?;
    let named = cycles.iter().map(|cycle| 16 - cycle.leading_zeros()).max().unwrap_or(0).max(1);
    let signals = arguments.signals.unwrap_or(named as usize);
    Trace::from_cycles(signals, &cycles).map_err(|error| {
        Failure::refused(error, vec![refused::minutes_alone(error, signals, &cycles)])
    })
}

fn stored_trace(bytes: &[u8]) -> Result<Trace, Failure> {
    let own = bytes.get(3).copied().unwrap_or(0).into();
    Trace::try_from(bytes)
        .map_err(|error| Failure::refused(error, vec![refused::trace(error, own, bytes)]))
}

fn minutes(source: &Source, arguments: &Arguments) -> Result<Vec<u16>, Failure> {
    let text = if arguments.tidy { tidied(source, tidy::minutes) } else { source.bytes.clone() };
    let text = String::from_utf8_lossy(&text);
    fasunqir::read_minutes(&text).map_err(|error| match error {
        MinutesError::Line { number, fault } => {
            let line = text.lines().nth(number - 1).unwrap_or("");
            source.failure(&typing::pointed(number, fault.column, &fault.why, line))
        }
        other => source.failure(&other.to_string()),
    })
}

/// What a file is by itself, for commands that take any.
pub enum Anything {
    Sheet(Given),
    Trace(Trace),
    Formula(Formula),
}

/// A file of any kind and form: stored bytes by their layout, text by what stands first.
pub fn anything(source: Source, arguments: &Arguments) -> Result<Anything, Failure> {
    let found = if let Some(bytes) = source.stored()? {
        stored(&source.name, &bytes)?
    } else if source.is_minutes() {
        Anything::Trace(trace_alone(source, arguments)?)
    } else {
        Anything::Sheet(typed_sheet(source, arguments)?)
    };
    match found {
        Anything::Sheet(given) => advised(given, arguments).map(Anything::Sheet),
        other if arguments.advice.is_empty() => Ok(other),
        _ => Err(Failure::Message("--advice: only a sheet has clauses, and this is none".into())),
    }
}

/// Stored bytes of any kind. What is accepted as one kind is no other: a sheet and a formula differ in
/// byte 3, their kind, and in byte 4 they have a number of signals where the traces that have the same
/// in byte 3, with one or two signals, have a zero. Bytes that are none are refused as what they are
/// most like.
fn stored(name: &str, bytes: &[u8]) -> Result<Anything, Failure> {
    let formula = Formula::try_from(bytes);
    let as_trace = formula.is_err() && Sheet::try_from(bytes).is_err();
    if as_trace && (Trace::try_from(bytes).is_ok() || is_most_like_a_trace(bytes)) {
        return stored_trace(bytes).map(Anything::Trace);
    }
    match formula {
        Ok(formula) => Ok(Anything::Formula(formula)),
        Err(error) if bytes.get(3) == Some(&2) => {
            Err(Failure::Message(format!("{name}: it is no stored formula: {error}")))
        }
        Err(_) => stored_sheet(bytes.to_vec()).map(Anything::Sheet),
    }
}

/// Whether refused bytes are most like a trace: they don't have the length that a sheet's counts make,
/// their length field fits, and what is in the place of the signals and the first cycle can be that.
fn is_most_like_a_trace(bytes: &[u8]) -> bool {
    let pair = |k: usize| usize::from(bytes[k]) * 256 + usize::from(bytes[k + 1]);
    let is_counted =
        bytes.len() >= 9 && bytes.len() == 9 + 6 * pair(6) + 11 * usize::from(bytes[8]);
    let fits = bytes.len() >= 4 && pair(0) == bytes.len() - 2 && (1..=16).contains(&bytes[3]);
    !is_counted && fits && (bytes[3] > 8 || bytes.get(4).is_none_or(|&high| high == 0))
}
