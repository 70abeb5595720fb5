//! Sheets are timing diagrams with limited liveness, traces are what was observed. A [`Sheet`] is
//! read from a text or from stored bytes, a [`Trace`] from minutes or from stored bytes.
//! [`Sheet::check`] says which clause of the sheet a trace breaks and where and which advice fails,
//! [`explain()`] what became of each clause, [`Sheet::table`] on which intervals a formula of the sheet
//! holds, and [`Sheet::formula`] is the sheet as a QDDC [`Formula`]. A [`Board`] takes the cycles of a
//! trace one by one as they arrive, and has the verdict so far.
//!
//! The operations are proved in Rattle; [`bytes`] has them as they are, over bytes in the stored
//! layout, and the rest of this crate asks them and decides nothing of its own.
//!
//! ```
//! use fasunqir::{Finding, Place, Sheet, Trace};
//!
//! // One signal, no names, and one commitment: the signal never rises.
//! let sheet: Sheet = "1 0\nrequire anti(<s0>:)\n".parse()?;
//! // Three minutes, the signal high in the last.
//! let trace: Trace = "-\n-\ns0\n".parse()?;
//!
//! let verdict = sheet.check(&trace)?;
//! let place = Place { clause: 0, i: 2, j: 2, k: 2 };
//! assert_eq!(verdict.finding, Finding::Broken(place));
//! assert_eq!(verdict.advice, 0);
//! assert_eq!(verdict.to_string(), "BROKEN 0 2 2 2 0");
//! # Ok::<(), Box<dyn std::error::Error>>(())
//! ```

mod board;
pub mod bytes;
mod error;
mod explain;
mod formula;
mod notation;
mod sheet;
mod text;
mod trace;
mod verdict;

pub use board::{Board, CYCLES, SHEET};
pub use bytes::Table;
pub use error::{Error, Operation};
pub use explain::{explain, Explanation, Outcome};
pub use formula::{Formula, FormulaError};
pub use sheet::{Clause, Node, Part, Role, Sheet, Type};
pub use trace::{minute, read_minute, read_minutes, MinutesError, NoMinute, Trace};
pub use verdict::{Finding, Place, Verdict};
