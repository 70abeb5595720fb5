//! The brute-force second implementation, from document 01 and the change requests alone: literal
//! and slow. Placements are enumerated as maps, columns as strings of zeros and ones, intervals by
//! recursion, and readings of a text by all ways of cutting it.

#![allow(dead_code, clippy::needless_range_loop)]

pub mod board;
pub mod clauses;
pub mod formula;
pub mod meaning;
pub mod program;
pub mod stored;
pub mod text;

use clauses::Verdict;
use meaning::{Marks, Meaning};
use stored::{is_formula, Sheet};

/// The number of a refusal.
pub type Number = u8;

/// Check, for so many lent words.
pub fn check(sheet: &[u8], trace: &[u8], words: usize) -> Result<Verdict, Number> {
    let sheet = stored::sheet(sheet)?;
    let trace = stored::trace(trace, &sheet)?;
    if words < 4096 {
        return Err(15);
    }
    Ok(clauses::verdict(&sheet, &trace))
}

/// Table, for so many lent words and rows.
pub fn table(
    sheet: &[u8],
    trace: &[u8],
    node: usize,
    cycles: [usize; 3],
    words: usize,
    rows: usize,
) -> Result<[u64; 64], Number> {
    let sheet = stored::sheet(sheet)?;
    let trace = stored::trace(trace, &sheet)?;
    if words < 4096 || rows < 64 {
        return Err(15);
    }
    if node >= sheet.nodes.len() || !is_formula(sheet.nodes[node].op) {
        return Err(16);
    }
    if cycles[..sheet.names].iter().any(|&cycle| cycle >= trace.len()) {
        return Err(17);
    }
    Ok(rows_of(&sheet, &trace, node, cycles))
}

fn rows_of(sheet: &Sheet, trace: &[u16], node: usize, cycles: [usize; 3]) -> [u64; 64] {
    let mut marks: Marks = [0; 3];
    for name in 0..sheet.names {
        marks[name] = 1 << cycles[name];
    }
    let meaning = Meaning::new(&sheet.nodes, trace);
    let mut rows = [0; 64];
    for b in 0..trace.len() {
        for e in b..trace.len() {
            if meaning.holds(node, marks, b, e) {
                rows[b] += 1 << e;
            }
        }
    }
    rows
}

/// Whether translate refuses the sheet, for so many lent bytes.
pub fn translate(sheet: &[u8], out: usize) -> Result<Sheet, Number> {
    let sheet = stored::sheet(sheet)?;
    if out < 8192 {
        return Err(14);
    }
    Ok(sheet)
}
