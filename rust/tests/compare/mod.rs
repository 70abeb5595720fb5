//! The library beside the reference: the same answer, and what was lent afterwards as document 01
//! says. A difference is printed with the bytes in hexadecimal, to be replayed.

#![allow(dead_code)]

pub mod board;

use crate::build::{hex, Trace};
use crate::reference::clauses::{self, Finding, Verdict};
use crate::reference::{self, formula, stored, Number};
use fasunqir::Place;
use std::io::Write;

/// Says on the terminal, past the test harness, how much was run.
pub fn report(line: String) {
    std::io::stderr().write_all((line + "\n").as_bytes()).unwrap();
}

/// The bytes of a sheet and a trace, also left in files, and the command that lays one over the
/// other.
pub fn kept(sheet: &[u8], trace: &[u8]) -> String {
    let sum = sheet.iter().chain(trace).fold(7u32, |sum, &b| sum.wrapping_mul(31) + b as u32);
    let folder = format!("target/replay/{sum:08x}");
    let path = std::path::Path::new(env!("CARGO_MANIFEST_DIR")).join(&folder);
    let (sheet, trace) = (hex(sheet), hex(trace));
    let written = std::fs::create_dir_all(&path).is_ok()
        && std::fs::write(path.join("sheet.hex"), &sheet).is_ok()
        && std::fs::write(path.join("trace.hex"), &trace).is_ok();
    let command = if written {
        format!("./fasunqir explain rust/{folder}/sheet.hex rust/{folder}/trace.hex")
    } else {
        "the bytes could not be left in files".to_string()
    };
    format!("sheet {sheet}\ntrace {trace}\n{command}")
}

/// The words lent to an operation hold anything.
fn lent(length: usize) -> Vec<u64> {
    (0..length as u64).map(|i| (i + 1).wrapping_mul(0x9E37_79B9_7F4A_7C15) | 1).collect()
}

fn lent_bytes(length: usize) -> Vec<u8> {
    (0..length).map(|i| (i * 37 + 11) as u8).collect()
}

fn number<T>(answer: Result<T, fasunqir::Error>) -> Result<T, Number> {
    answer.map_err(|refusal| refusal.number())
}

pub fn as_reference(fasunqir::Verdict { finding, advice }: fasunqir::Verdict) -> Verdict {
    let finding = match finding {
        fasunqir::Finding::Holds => Finding::Holds,
        fasunqir::Finding::Excused { clause } => Finding::Excused(clause),
        fasunqir::Finding::Broken(Place { clause, i, j, k }) => Finding::Broken(clause, i, j, k),
        other => panic!("no finding of the papers: {other}"),
    };
    Verdict { finding, advice }
}

/// Words after a check or a table: as before if it refused, all zero if it answered.
fn words_after<T>(
    answer: &Result<T, Number>,
    before: &[u64],
    after: &[u64],
    replay: impl Fn() -> String,
) {
    match answer {
        Ok(_) => assert!(after.iter().all(|&word| word == 0), "words left behind\n{}", replay()),
        Err(_) => assert!(before == after, "words changed by a refusal\n{}", replay()),
    }
}

pub fn check(sheet: &[u8], trace: &[u8], words: usize) -> Result<Verdict, Number> {
    let replay = || format!("check, {words} words\n{}", kept(sheet, trace));
    let before = lent(words);
    let mut after = before.clone();
    let found = number(fasunqir::bytes::check_with(sheet, trace, &mut after)).map(as_reference);
    assert_eq!(found, reference::check(sheet, trace, words), "{}", replay());
    words_after(&found, &before, &after, replay);
    found
}

pub fn table(
    sheet: &[u8],
    trace: &[u8],
    node: usize,
    cycles: [usize; 3],
    words: usize,
    rows: usize,
) -> Result<[u64; 64], Number> {
    let replay = || {
        let kept = kept(sheet, trace);
        format!("table of node {node} at {cycles:?}, {words} words, {rows} rows\n{kept}")
    };
    let before = lent(words);
    let mut after = before.clone();
    let rows_before = lent(rows);
    let mut rows_after = rows_before.clone();
    let answer =
        fasunqir::bytes::table_with(sheet, trace, node, cycles, &mut after, &mut rows_after);
    let found = number(answer).map(|()| <[u64; 64]>::try_from(&rows_after[..64]).unwrap());
    assert_eq!(found, reference::table(sheet, trace, node, cycles, words, rows), "{}", replay());
    words_after(&found, &before, &after, replay);
    // Lent rows are as they were where the table is refused, and past its 64.
    let written = if found.is_ok() { 64 } else { 0 };
    assert!(rows_before[written..] == rows_after[written..], "rows past the table\n{}", replay());
    found
}

/// A sheet with its formula.
pub struct Translated {
    pub sheet: Vec<u8>,
    pub source: stored::Sheet,
    pub formula: stored::Sheet,
}

/// Translates and checks the form, the bound, and the bytes after the formula.
pub fn translate(sheet: &[u8], out: usize) -> Result<Translated, Number> {
    let replay = || format!("translate into {out} bytes\nsheet {}", hex(sheet));
    let before = lent_bytes(out);
    let mut after = before.clone();
    let found = number(fasunqir::bytes::translate_into(sheet, &mut after));
    let source = match (reference::translate(sheet, out), &found) {
        (Ok(source), Ok(_)) => source,
        (Err(expected), Err(number)) => {
            assert_eq!(*number, expected, "{}", replay());
            assert!(before == after, "output changed by a refusal\n{}", replay());
            return Err(expected);
        }
        (expected, _) => {
            panic!("found {found:?}, refusal expected {:?}\n{}", expected.err(), replay())
        }
    };
    let length = found?;
    assert!(length <= out, "length {length}\n{}", replay());
    assert!(before[length..] == after[length..], "bytes past the formula\n{}", replay());
    let formula = formula::formula(&after[..length], &source)
        .unwrap_or_else(|wrong| panic!("{wrong}\nformula {}\n{}", hex(&after[..length]), replay()));
    Ok(Translated { sheet: sheet.to_vec(), source, formula })
}

impl Translated {
    /// The formula, evaluated over all columns, is true of a list of cycles exactly when the
    /// requirement is; and, where the list fits a stored trace, exactly when the check doesn't give
    /// Broken.
    pub fn agrees(&self, cycles: &[u16]) -> bool {
        let trace = Trace::new(self.source.signals as u8, cycles).bytes();
        let replay = || format!("agreement\n{}", kept(&self.sheet, &trace));
        let truth = formula::truth(&self.formula, cycles);
        assert_eq!(truth, clauses::requirement(&self.source, cycles), "{}", replay());
        if cycles.len() <= 64 {
            let verdict = check(&self.sheet, &trace, 4096);
            let broken = matches!(verdict, Ok(Verdict { finding: Finding::Broken(..), .. }));
            assert_eq!(truth, !broken, "{verdict:?}\n{}", replay());
        }
        truth
    }
}

/// Reads a typed sheet; the lent bytes are as before after a refusal, and past the sheet's.
pub fn read_text(text: &[u8], out: usize) -> Result<Vec<u8>, Number> {
    let replay = || {
        let typed = String::from_utf8_lossy(text);
        format!("read into {out} bytes\n{typed}\ntext {}", hex(text))
    };
    let before = lent_bytes(out);
    let mut after = before.clone();
    let length = number(fasunqir::bytes::read_text_into(text, &mut after));
    let written = *length.as_ref().unwrap_or(&0);
    assert!(written <= out, "length {written}\n{}", replay());
    let found = length.map(|length| after[..length].to_vec());
    assert_eq!(found, reference::text::read_text(text, out), "{}", replay());
    assert!(before[written..] == after[written..], "bytes that are not the sheet's\n{}", replay());
    found
}

/// Counts of texts that were read, and of refusals by their number.
#[derive(Default)]
pub struct TextTally {
    pub read: usize,
    pub numbers: [usize; 21],
}

impl TextTally {
    pub fn count(&mut self, answer: &Result<Vec<u8>, Number>) {
        match answer {
            Ok(_) => self.read += 1,
            Err(number) => self.numbers[*number as usize] += 1,
        }
    }

    /// Prints the counts and demands so many at least: texts that were read, and refusals by 18, 19,
    /// 20, 4, 6, 9 and 14.
    pub fn demand(&self, what: &str, least: [usize; 8]) {
        let refused = [18, 19, 20, 4, 6, 9, 14].map(|number: usize| self.numbers[number]);
        let [n18, n19, n20, n4, n6, n9, n14] = refused;
        report(format!(
            "{what}: {} texts ({} read; refused {n18} by 18, {n19} by 19, {n20} by 20, {n4} by 4, \
             {n6} by 6, {n9} by 9, {n14} by 14)",
            self.read + self.numbers.iter().sum::<usize>(),
            self.read
        ));
        let none = [1, 2, 3, 5, 7, 8].iter().all(|&number: &usize| self.numbers[number] == 0);
        assert!(none, "{what}: what a text stands for can't be refused so: {:?}", self.numbers);
        let counts: Vec<usize> = [self.read].into_iter().chain(refused).collect();
        let enough = counts.iter().zip(&least).all(|(count, least)| count >= least);
        assert!(enough, "{what}: {counts:?} came, and {least:?} at least are demanded");
    }
}

/// Counts of what was found.
#[derive(Default)]
pub struct Tally {
    pub holds: usize,
    pub excused: usize,
    pub broken: usize,
    pub refused: usize,
    /// Refusals by their number.
    pub numbers: [usize; 23],
    pub tables: usize,
    pub formulas: usize,
    /// Evaluations of a formula that gave true, and false.
    pub truths: usize,
    pub falsehoods: usize,
    /// Verdicts with advice that fails, under Holds, Excused and Broken.
    pub advised: [usize; 3],
    /// Verdicts with the bit of clause k set.
    pub bits: [usize; 8],
}

impl Tally {
    pub fn count(&mut self, answer: &Result<Verdict, Number>) {
        let Verdict { finding, advice } = match answer {
            Ok(verdict) => verdict,
            Err(number) => {
                self.refused += 1;
                self.numbers[*number as usize] += 1;
                return;
            }
        };
        let (count, under) = match finding {
            Finding::Holds => (&mut self.holds, 0),
            Finding::Excused(_) => (&mut self.excused, 1),
            Finding::Broken(..) => (&mut self.broken, 2),
        };
        *count += 1;
        self.advised[under] += (*advice != 0) as usize;
        for (k, count) in self.bits.iter_mut().enumerate() {
            *count += (advice >> k & 1) as usize;
        }
    }

    pub fn evaluated(&mut self, truth: bool) {
        if truth {
            self.truths += 1;
        } else {
            self.falsehoods += 1;
        }
    }

    /// Prints the counts and demands of each kind so many at least, so that no generator falls to
    /// one verdict unnoticed: held, excused, broken and refused checks, true and false formulas.
    pub fn demand(&self, what: &str, least: [usize; 6]) {
        let Tally { holds, excused, broken, refused, tables, formulas, truths, falsehoods, .. } =
            self;
        report(format!(
            "{what}: {} checks ({holds} hold, {excused} excused, {broken} broken, {refused} \
             refused), {tables} tables, {formulas} formulas evaluated {} times ({truths} true, \
             {falsehoods} false)",
            holds + excused + broken + refused,
            truths + falsehoods
        ));
        let counts = [*holds, *excused, *broken, *refused, *truths, *falsehoods];
        let enough = counts.iter().zip(&least).all(|(count, least)| count >= least);
        assert!(enough, "{what}: {counts:?} came, and {least:?} at least are demanded");
    }

    /// Prints how often each of these refusals came and demands so many at least of each.
    pub fn demand_numbers(
        &self,
        what: &str,
        numbers: impl IntoIterator<Item = usize>,
        least: usize,
    ) {
        let counts: Vec<_> = numbers.into_iter().map(|n| (n, self.numbers[n])).collect();
        let times: Vec<_> = counts.iter().map(|(n, count)| format!("{n}: {count}")).collect();
        report(format!("{what}: refusals by their number, {}", times.join(", ")));
        let enough = counts.iter().all(|&(_, count)| count >= least);
        assert!(enough, "{what}: {least} of each are demanded");
    }

    /// Prints how many of the verdicts have advice that fails and demands so many at least under
    /// each finding: held, excused and broken.
    pub fn demand_advice(&self, what: &str, least: [usize; 3]) {
        let Tally { holds, excused, broken, advised: [held, let_off, broke], .. } = self;
        report(format!(
            "{what}: advice fails in {held} of {holds} that hold, {let_off} of {excused} excused, \
             {broke} of {broken} broken"
        ));
        let enough = self.advised.iter().zip(&least).all(|(count, least)| count >= least);
        assert!(enough, "{what}: {:?} came, and {least:?} are demanded", self.advised);
    }

    /// Prints how often each clause's bit is set and demands so many at least of each.
    pub fn demand_bits(&self, what: &str, least: usize) {
        report(format!("{what}: bits of clauses 0 to 7 are set {:?} times", self.bits));
        let enough = self.bits.iter().all(|&count| count >= least);
        assert!(enough, "{what}: {:?} came, and {least} of each are demanded", self.bits);
    }
}
