//! Refusals by their number.

use std::fmt;

/// What was asked when a refusal came; a number's text may go by it.
#[derive(Clone, Copy, Debug, PartialEq, Eq, Hash)]
#[non_exhaustive]
pub enum Operation {
    /// Bytes as a [`Trace`](crate::Trace) by itself, without a sheet.
    Trace,
    Check,
    Table,
    Translate,
    ReadText,
    Open,
    Feed,
}

/// The highest number of a refusal.
pub(crate) const LAST: usize = 22;

/// Why an operation gave no answer: the lowest of the numbers 1–22 that applies. Only
/// [`read_text`](crate::bytes::read_text), and so a typed sheet, doesn't go by their order: it asks
/// 18, 19 and 20 before the others.
///
/// ```
/// use fasunqir::{Sheet, Trace};
///
/// let error = Sheet::try_from(&[][..]).unwrap_err();
/// assert_eq!(error.number(), 1);
/// assert_eq!(
///     error.to_string(),
///     "1: the sheet has under 9 bytes or bytes 0–1 aren't its length less 2"
/// );
/// ```
#[derive(Clone, Copy, Debug, PartialEq, Eq, Hash)]
#[non_exhaustive]
pub struct Error {
    pub(crate) number: u8,
    pub(crate) operation: Operation,
}

const TEXTS: [&str; LAST] = [
    "the sheet has under 9 bytes or bytes 0–1 aren't its length less 2",
    "the sheet's version isn't 1",
    "the sheet's kind isn't 1",
    "a count s, m, n or c is outside its range for kind 1",
    "the sheet's length isn't 9 + 6n + 11c",
    "a node has an op not of kind 1, a nonzero unused field, a signal, name, comparison or symbol \
     out of range, or a gap with a > b",
    "an operand isn't an earlier node of the sort needed",
    "a clause has a type outside 1–6, a role above 2, a used root that isn't a formula node, or a \
     nonzero unused root or mask",
    "a mask has a bit for a name from m up, or a part reaches a name its mask lacks",
    "the trace has under 4 bytes or bytes 0–1 aren't its length less 2",
    "the trace's version isn't 1",
    "the trace's signals aren't the sheet's",
    "the trace's cycles aren't 1–64 whole words, or a bit from s up is set",
    "the output has under 8,192 bytes",
    "the lent words are under 4,096",
    "the node asked for isn't a formula node",
    "a name below m is put on no cycle of the trace",
    "over 32 round brackets are open at a place",
    "the text is outside the grammar",
    "more than 64 nodes or 8 clauses",
    "a cycle has a bit from s up",
    "a 65th cycle",
];

impl Error {
    /// The number, 1–22.
    pub fn number(self) -> u8 {
        self.number
    }

    /// What was asked.
    pub fn operation(self) -> Operation {
        self.operation
    }

    /// What the number stands for, of the operation that refused.
    ///
    /// ```
    /// use fasunqir::{Board, CYCLES, SHEET};
    ///
    /// let typed: fasunqir::Sheet = "1 0\nrequire anti(<s0>:)\n".parse().unwrap();
    /// let mut sheet = [0; SHEET];
    /// sheet[..typed.as_bytes().len()].copy_from_slice(typed.as_bytes());
    /// let refusal = Board::from_parts(sheet, [0; CYCLES], 65).feed(0).unwrap_err();
    /// assert_eq!(refusal.text(), "the board has more than 64 cycles, or one with a bit from s up");
    /// ```
    pub fn text(self) -> &'static str {
        match (self.operation, self.number) {
            (Operation::Trace, 12) => "the trace's signals aren't 1–16",
            (Operation::Feed, 13) => {
                "the board has more than 64 cycles, or one with a bit from s up"
            }
            (Operation::Table, 15) => "the lent words are under 4,096 or the lent rows under 64",
            (_, number) => TEXTS[number as usize - 1],
        }
    }
}

impl fmt::Display for Error {
    fn fmt(&self, out: &mut fmt::Formatter<'_>) -> fmt::Result {
        write!(out, "{}: {}", self.number, self.text())
    }
}

impl std::error::Error for Error {}
