//! What a check answers.

use std::fmt;

/// Where a commitment is broken: its clause and three cycles. For pref and init `i` is 0; for pref,
/// init, anti and implies `k` is `j`.
#[derive(Clone, Copy, Debug, PartialEq, Eq, PartialOrd, Ord, Hash)]
pub struct Place {
    pub clause: usize,
    pub i: usize,
    pub j: usize,
    pub k: usize,
}

/// What a check finds of the requirement, which is made of assumptions and commitments. Advice is
/// passed over.
#[derive(Clone, Copy, Debug, PartialEq, Eq, Hash)]
#[non_exhaustive]
pub enum Finding {
    /// Every assumption and every commitment holds.
    Holds,
    /// An assumption fails; this is the first.
    Excused { clause: usize },
    /// Every assumption holds and a commitment fails; this is the first place.
    Broken(Place),
}

impl fmt::Display for Finding {
    fn fmt(&self, out: &mut fmt::Formatter<'_>) -> fmt::Result {
        match self {
            Finding::Holds => write!(out, "HOLDS"),
            Finding::Excused { clause } => write!(out, "EXCUSED {clause}"),
            Finding::Broken(Place { clause, i, j, k }) => {
                write!(out, "BROKEN {clause} {i} {j} {k}")
            }
        }
    }
}

/// The answer of a check: what it finds of the requirement, and beside it the advice that fails. It
/// prints as the program prints it.
///
/// ```
/// use fasunqir::{Finding, Role, Sheet};
///
/// // Neither signal is ever high; the second clause is turned to advice.
/// let sheet: Sheet = "2 0\nrequire anti(<s0>:)\nrequire anti(<s1>:)\n".parse().unwrap();
/// let sheet = sheet.with_role(1, Role::Advice);
///
/// // Signal 1 is high in the second of two minutes: the advice fails and the requirement holds.
/// let verdict = sheet.check(&"-\ns1".parse().unwrap()).unwrap();
/// assert_eq!(verdict.finding, Finding::Holds);
/// assert_eq!(verdict.advice, 0b10);
/// assert_eq!(verdict.to_string(), "HOLDS 2");
/// ```
#[derive(Clone, Copy, Debug, PartialEq, Eq, Hash)]
pub struct Verdict {
    pub finding: Finding,
    /// Bit k is set exactly if clause k is advice and fails, whatever the finding.
    pub advice: u8,
}

impl Verdict {
    /// The numbers of the clauses that are advice and fail, from the lowest up.
    ///
    /// ```
    /// use fasunqir::{Finding, Verdict};
    ///
    /// let verdict = Verdict { finding: Finding::Excused { clause: 1 }, advice: 0b1000_0101 };
    /// assert!(verdict.failing_advice().eq([0, 2, 7]));
    /// ```
    pub fn failing_advice(self) -> impl Iterator<Item = usize> {
        (0..8).filter(move |clause| self.advice >> clause & 1 == 1)
    }
}

impl fmt::Display for Verdict {
    fn fmt(&self, out: &mut fmt::Formatter<'_>) -> fmt::Result {
        write!(out, "{} {}", self.finding, self.advice)
    }
}
