//! Check, table and translate of this library and of another version of it, linked into one run by
//! build.rs and called in turn. Prints Markdown tables.

#[path = "../tests/build/mod.rs"]
mod build;
mod cases;
#[path = "../tests/generate/mod.rs"]
mod generate;
mod plain;
#[path = "../tests/reference/mod.rs"]
mod reference;
mod timing;

use cases::{places, Case};
use fasunqir::bytes::{OUTPUT, ROWS, WORDS};
use std::hint::black_box;
use timing::{median_and_most, microseconds, warm_up};

/// A version's check, table and translate, as the archive exports them.
struct Version {
    check: unsafe extern "C" fn(*const u8, usize, *const u8, usize, *mut u64, usize) -> u64,
    table: unsafe extern "C" fn(
        *const u8,
        usize,
        *const u8,
        usize,
        usize,
        usize,
        usize,
        usize,
        *mut u64,
        usize,
        *mut u64,
        usize,
    ) -> u64,
    translate: unsafe extern "C" fn(*const u8, usize, *mut u8, usize) -> u64,
}

macro_rules! version {
    ($check:ident, $table:ident, $translate:ident) => {{
        extern "C" {
            fn $check(_: *const u8, _: usize, _: *const u8, _: usize, _: *mut u64, _: usize)
                -> u64;
            fn $table(
                _: *const u8,
                _: usize,
                _: *const u8,
                _: usize,
                _: usize,
                _: usize,
                _: usize,
                _: usize,
                _: *mut u64,
                _: usize,
                _: *mut u64,
                _: usize,
            ) -> u64;
            fn $translate(_: *const u8, _: usize, _: *mut u8, _: usize) -> u64;
        }
        Version { check: $check, table: $table, translate: $translate }
    }};
}

impl Version {
    fn check(&self, sheet: &[u8], trace: &[u8], words: &mut [u64]) -> u64 {
        // SAFETY: each pointer is of as many elements as the length after it says, and what is lent
        // to be written overlaps nothing else.
        unsafe {
            (self.check)(
                sheet.as_ptr(),
                sheet.len(),
                trace.as_ptr(),
                trace.len(),
                words.as_mut_ptr(),
                words.len(),
            )
        }
    }

    fn table(
        &self,
        sheet: &[u8],
        trace: &[u8],
        node: usize,
        [p0, p1, p2]: [usize; 3],
        words: &mut [u64],
        rows: &mut [u64],
    ) -> u64 {
        // SAFETY: as above.
        unsafe {
            (self.table)(
                sheet.as_ptr(),
                sheet.len(),
                trace.as_ptr(),
                trace.len(),
                node,
                p0,
                p1,
                p2,
                words.as_mut_ptr(),
                words.len(),
                rows.as_mut_ptr(),
                rows.len(),
            )
        }
    }

    fn translate(&self, sheet: &[u8], out: &mut [u8]) -> u64 {
        // SAFETY: as above.
        unsafe { (self.translate)(sheet.as_ptr(), sheet.len(), out.as_mut_ptr(), out.len()) }
    }
}

fn title(what: &str) {
    println!("\n| {what} | other µs | library µs | other : library |");
    println!("|---|---:|---:|---:|");
}

fn line(what: &str, [other, library]: [f64; 2], same: bool) {
    let differ = if same { "" } else { ", answers differ" };
    println!("| {what}{differ} | {other:.2} | {library:.2} | {:.2} |", other / library);
}

/// The least times of `runs` runs.
fn least(runs: usize, mut run: impl FnMut() -> [f64; 2]) -> [f64; 2] {
    (0..runs).map(|_| run()).reduce(|[a, b], [c, d]| [f64::min(a, c), f64::min(b, d)]).unwrap()
}

/// The times of a check, and whether the answers are the same.
fn check(versions: &[Version; 2], runs: usize, case: &Case) -> ([f64; 2], bool) {
    let sheet = case.sheet.bytes();
    let mut lent = [(); 2].map(|()| (vec![0; WORDS], 0));
    let [other, library] = &mut lent;
    let call = |k: usize, (words, answer): &mut (Vec<u64>, u64)| {
        *answer = black_box(versions[k].check(&sheet, &case.trace, words));
    };
    let times = least(runs, || microseconds([&mut || call(0, other), &mut || call(1, library)]));
    (times, lent[0].1 == lent[1].1)
}

fn checks(versions: &[Version; 2], runs: usize, cases: Vec<Case>) {
    title("check");
    for case in cases {
        let (times, same) = check(versions, runs, &case);
        line(&case.what, times, same);
    }
}

fn drawn(versions: &[Version; 2]) {
    title("check, forty drawn sheets, 3 names, 64 cycles");
    let found: Vec<([f64; 2], bool)> =
        cases::drawn().iter().map(|case| check(versions, 1, case)).collect();
    let same = found.iter().all(|(_, same)| *same);
    let times: Vec<[f64; 2]> = found.iter().map(|(times, _)| *times).collect();
    for (what, times) in ["median", "worst"].into_iter().zip(median_and_most(&times)) {
        line(what, times, same);
    }
}

fn tables(versions: &[Version; 2], runs: usize, cases: Vec<(Case, usize)>) {
    title("table");
    for (Case { what, sheet, trace, cycles }, node) in cases {
        let sheet = sheet.bytes();
        let places = places(cycles);
        let mut lent = [(); 2].map(|()| (vec![0; WORDS], vec![0; ROWS]));
        let [other, library] = &mut lent;
        let call = |k: usize, (words, rows): &mut (Vec<u64>, Vec<u64>)| {
            black_box(versions[k].table(&sheet, &trace, node, places, words, rows));
        };
        let times =
            least(runs, || microseconds([&mut || call(0, other), &mut || call(1, library)]));
        line(&what, times, lent[0].1 == lent[1].1);
    }
}

/// Says too how many nodes each version writes.
fn translations(versions: &[Version; 2]) {
    title("translate");
    for (what, sheet) in cases::translations() {
        let sheet = sheet.bytes();
        let mut lent = [(); 2].map(|()| vec![0; OUTPUT]);
        let [other, library] = &mut lent;
        let call = |k: usize, out: &mut Vec<u8>| {
            black_box(versions[k].translate(&sheet, out));
        };
        let times = least(10, || microseconds([&mut || call(0, other), &mut || call(1, library)]));
        let [before, after] =
            lent.each_ref().map(|out| u16::from_be_bytes([out[6], out[7]]) as usize);
        let same = lent[0][..9 + 6 * before] == lent[1][..9 + 6 * after];
        line(&format!("{what}: {before} and {after} nodes"), times, same);
    }
}

fn main() {
    let versions = [
        version!(other_fasunqir_check, other_fasunqir_table, other_fasunqir_translate),
        version!(fasunqir_check, fasunqir_table, fasunqir_translate),
    ];
    warm_up();
    println!("64 nodes, 59 of them chops, on 64 cycles:");
    tables(&versions, 10, cases::joins().into_iter().map(|case| (case, 63)).collect());
    checks(&versions, 10, cases::joins());
    println!("\nThe sheets of ./bench:");
    tables(&versions, 1, cases::tables());
    checks(&versions, 1, cases::checks());
    drawn(&versions);
    translations(&versions);
}
