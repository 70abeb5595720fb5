//! Sheets and traces with the verdict that they are to have: the examples and traps of document 01
//! and the specifications of document 004; names that stay (request 4); advice (request 5); and typed
//! sheets with their answers. They are run on the reference and on the library.

#![allow(dead_code)]

pub mod advice;
pub mod examples;
pub mod names;
pub mod paper;
pub mod texts;

use crate::build::{Sheet, Trace};
use crate::reference::clauses::{Finding, Verdict};

pub struct Case {
    pub what: &'static str,
    pub sheet: Vec<u8>,
    pub trace: Vec<u8>,
    pub verdict: Verdict,
}

impl Case {
    /// A case in which no advice fails.
    pub fn new(what: &'static str, sheet: &Sheet, trace: &Trace, finding: Finding) -> Self {
        let verdict = Verdict { finding, advice: 0 };
        Case { what, sheet: sheet.bytes(), trace: trace.bytes(), verdict }
    }
}

/// Whether a formula node holds from b to e.
pub struct OnInterval {
    pub what: &'static str,
    pub sheet: Vec<u8>,
    pub trace: Vec<u8>,
    pub node: usize,
    pub cycles: [usize; 3],
    pub b: usize,
    pub e: usize,
    pub holds: bool,
}
