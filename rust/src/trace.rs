//! Traces that the proved library accepts, stored and as minutes.

use crate::bytes;
use crate::error::{Error, Operation};
use std::fmt;
use std::str::FromStr;

/// Cycles of a trace, at most.
const CYCLES: usize = 64;

/// A trace: bytes of the stored layout to which none of the refusals 10–13 applies, its signals its
/// own 1–16. It is read from such bytes, or from minutes, and prints as minutes: a line a minute,
/// with the signals that are high in it, or a dash.
///
/// ```
/// use fasunqir::{Sheet, Trace};
///
/// let trace: Trace = "-\ns0 s2\n".parse().unwrap();
/// assert_eq!(trace.as_bytes(), [0x00, 0x06, 1, 3, 0, 0, 0, 0b101]);
/// assert_eq!(trace.to_string(), "-\ns0 s2\n");
/// assert_eq!(Trace::try_from(trace.as_bytes()), Ok(trace.clone()));
///
/// // Minutes don't say how many signals there are: these are for a sheet with five.
/// assert_eq!(trace.with_signals(5).unwrap().signals(), 5);
/// ```
#[derive(Clone, PartialEq, Eq, Hash)]
pub struct Trace {
    bytes: Vec<u8>,
}

/// The bytes of a trace with these signals and cycles. Past the 65th a cycle can't change the answer,
/// which is refusal 13, and is left out, so that the length field has room.
fn stored(signals: u8, cycles: &[u16]) -> Vec<u8> {
    let cycles = &cycles[..cycles.len().min(CYCLES + 1)];
    let length = 2 + 2 * cycles.len() as u16;
    let mut bytes = length.to_be_bytes().to_vec();
    bytes.extend([1, signals]);
    bytes.extend(cycles.iter().flat_map(|cycle| cycle.to_be_bytes()));
    bytes
}

impl Trace {
    /// The bytes as a trace for a sheet with so many signals, or the number that refuses them. The
    /// check of the smallest sheet is asked.
    pub(crate) fn accepted(signals: u8, bytes: &[u8]) -> Result<Trace, u8> {
        let sheet = bytes::read_text(format!("{signals} 0\nrequire anti(slen < 0:)\n").as_bytes())
            .expect("signals that a sheet can have");
        bytes::check(&sheet, bytes).map_err(Error::number)?;
        Ok(Trace { bytes: bytes.to_vec() })
    }

    /// A trace of cycles, bit k for signal k; refused by 12 where the signals aren't 1–16 and by 13.
    ///
    /// ```
    /// use fasunqir::Trace;
    ///
    /// assert_eq!(Trace::from_cycles(2, &[0, 0b11]).unwrap().to_string(), "-\ns0 s1\n");
    /// assert_eq!(Trace::from_cycles(2, &[0b100]).unwrap_err().number(), 13);
    /// ```
    pub fn from_cycles(signals: usize, cycles: &[u16]) -> Result<Trace, Error> {
        Trace::try_from(stored(signals.try_into().unwrap_or(u8::MAX), cycles))
    }

    /// The same cycles with another number of signals.
    pub fn with_signals(&self, signals: usize) -> Result<Trace, Error> {
        Trace::from_cycles(signals, &self.cycles())
    }

    /// The stored bytes.
    pub fn as_bytes(&self) -> &[u8] {
        &self.bytes
    }

    /// How many signals it has, 1–16.
    pub fn signals(&self) -> usize {
        self.bytes[3].into()
    }

    /// Its 1–64 cycles, bit k for signal k.
    pub fn cycles(&self) -> Vec<u16> {
        self.bytes[4..].chunks_exact(2).map(|c| u16::from_be_bytes([c[0], c[1]])).collect()
    }
}

impl TryFrom<Vec<u8>> for Trace {
    type Error = Error;

    fn try_from(bytes: Vec<u8>) -> Result<Trace, Error> {
        // of a trace whose signals no sheet has, a sheet with one signal refuses 10–12
        let signals =
            bytes.get(3).copied().filter(|signals| (1..=16).contains(signals)).unwrap_or(1);
        Trace::accepted(signals, &bytes)
            .map_err(|number| Error { number, operation: Operation::Trace })
    }
}

impl TryFrom<&[u8]> for Trace {
    type Error = Error;

    fn try_from(bytes: &[u8]) -> Result<Trace, Error> {
        Trace::try_from(bytes.to_vec())
    }
}

impl FromStr for Trace {
    type Err = MinutesError;

    /// Minutes as a trace; its signals are those up to the highest that is high in a minute, one at
    /// least.
    fn from_str(text: &str) -> Result<Trace, MinutesError> {
        let cycles = read_minutes(text)?;
        let signals =
            cycles.iter().map(|cycle| 16 - cycle.leading_zeros()).max().unwrap_or(0).max(1);
        Trace::from_cycles(signals as usize, &cycles).map_err(MinutesError::Refused)
    }
}

impl fmt::Display for Trace {
    fn fmt(&self, out: &mut fmt::Formatter<'_>) -> fmt::Result {
        self.cycles().into_iter().try_for_each(|cycle| writeln!(out, "{}", minute(cycle)))
    }
}

impl fmt::Debug for Trace {
    fn fmt(&self, out: &mut fmt::Formatter<'_>) -> fmt::Result {
        write!(out, "Trace({:02X?})", self.bytes)
    }
}

/// A minute as it is typed: the signals that are high, or a dash.
pub fn minute(cycle: u16) -> String {
    let high: Vec<_> = (0..16).filter(|k| cycle >> k & 1 == 1).map(|k| format!("s{k}")).collect();
    if high.is_empty() {
        "-".to_string()
    } else {
        high.join(" ")
    }
}

/// What is wrong with a line that is no minute.
#[derive(Clone, Debug, PartialEq, Eq)]
pub struct NoMinute {
    /// The character of the line, from 0, where it goes wrong.
    pub column: usize,
    pub why: String,
}

/// Why a text is no trace.
#[derive(Clone, Debug, PartialEq, Eq)]
#[non_exhaustive]
pub enum MinutesError {
    /// A line, counted from 1, is no minute.
    Line { number: usize, fault: NoMinute },
    /// Each line is a minute, and the trace of them is refused.
    Refused(Error),
}

impl fmt::Display for MinutesError {
    fn fmt(&self, out: &mut fmt::Formatter<'_>) -> fmt::Result {
        match self {
            MinutesError::Line { number, fault } => {
                write!(out, "line {number}, column {}: {}", fault.column + 1, fault.why)
            }
            MinutesError::Refused(error) => error.fmt(out),
        }
    }
}

impl std::error::Error for MinutesError {}

/// The cycles of minutes, a line each; lines end in a line end, also one with a carriage return
/// before it, and the last may lack its own. A line of a comment alone is none.
///
/// ```
/// assert_eq!(fasunqir::read_minutes("# an offer\r\nS0, s2\r\n-").unwrap(), [0b101, 0]);
/// let error = fasunqir::read_minutes("s0\ns16\n").unwrap_err();
/// assert_eq!(error.to_string(), "line 2, column 1: 's16' is no signal: they are s0 to s15");
/// ```
pub fn read_minutes(text: &str) -> Result<Vec<u16>, MinutesError> {
    let mut cycles = vec![];
    for (before, line) in text.lines().enumerate() {
        let read = read_minute(line);
        cycles.extend(read.map_err(|fault| MinutesError::Line { number: before + 1, fault })?);
    }
    Ok(cycles)
}

/// One line of minutes: the signals that are high, in any order and either case, blanks or commas
/// between them, or a lone dash where none is; a comment goes from `#` to the end of the line. A
/// comment alone is no minute and no fault.
pub fn read_minute(line: &str) -> Result<Option<u16>, NoMinute> {
    let words = line.split('#').next().unwrap_or("");
    let fault = |column: usize, why: String| Err(NoMinute { column, why });
    let mut cycle = None;
    let mut dash = None;
    let mut at = 0;
    for word in words.split([' ', '\t', ',', '\r']) {
        let column = at;
        at += word.chars().count() + 1;
        if word.is_empty() {
            continue;
        }
        if dash.is_some() || word == "-" && cycle.is_some() {
            return fault(dash.unwrap_or(column), "a dash is there beside other words".to_string());
        }
        if word == "-" {
            dash = Some(column);
            continue;
        }
        let Some(k) = signal(word) else {
            return fault(column, no_signal(word));
        };
        let high = cycle.unwrap_or(0u16);
        if high >> k & 1 == 1 {
            return fault(column, format!("s{k} is there twice"));
        }
        cycle = Some(high | 1 << k);
    }
    match (cycle, dash) {
        (None, None) if words.len() < line.len() => Ok(None),
        (None, None) => {
            fault(0, "it is empty; a minute in which no signal is high is a lone dash".to_string())
        }
        _ => Ok(Some(cycle.unwrap_or(0))),
    }
}

/// The number of a signal as it is typed.
fn signal(word: &str) -> Option<usize> {
    let digits = word.strip_prefix(['s', 'S'])?;
    (0..16).find(|k| digits == k.to_string())
}

fn no_signal(word: &str) -> String {
    let mut shown: String = word.chars().take(20).flat_map(char::escape_debug).collect();
    if word.chars().count() > 20 {
        shown += "...";
    }
    format!("'{shown}' is no signal: they are s0 to s15")
}
