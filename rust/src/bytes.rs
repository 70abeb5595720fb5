//! The proved operations over bytes in the stored layout, as the static library exports them. Any
//! bytes are taken, and each operation refuses by itself what is no sheet, trace or buffer, by the
//! lowest number that applies. [`Sheet`](crate::Sheet) and [`Trace`](crate::Trace) stand on these.

use crate::error::{Error, Operation, LAST};
use crate::verdict::{Finding, Place, Verdict};
use crate::Board;

/// Words of 64 bits that check, table and a board's feed borrow, at least.
pub const WORDS: usize = 4096;

/// Rows of an interval table.
pub const ROWS: usize = 64;

/// Bytes that the output of the translator and of the reader of texts has, at least.
pub const OUTPUT: usize = 8192;

pub(crate) mod boundary {
    extern "C" {
        pub fn fasunqir_check(
            sheet: *const u8,
            sheet_len: usize,
            trace: *const u8,
            trace_len: usize,
            words: *mut u64,
            words_len: usize,
        ) -> u64;

        pub fn fasunqir_table(
            sheet: *const u8,
            sheet_len: usize,
            trace: *const u8,
            trace_len: usize,
            node: usize,
            c0: usize,
            c1: usize,
            c2: usize,
            words: *mut u64,
            words_len: usize,
            rows: *mut u64,
            rows_len: usize,
        ) -> u64;

        pub fn fasunqir_translate(
            sheet: *const u8,
            sheet_len: usize,
            out: *mut u8,
            out_len: usize,
        ) -> u64;

        pub fn fasunqir_read_text(
            text: *const u8,
            text_len: usize,
            out: *mut u8,
            out_len: usize,
        ) -> u64;

        pub fn fasunqir_open(
            sheet: *const u8,
            sheet_len: usize,
            board_sheet: *mut u8,
            cycles: *mut u16,
            taken: *mut usize,
            verdict: *mut u64,
        ) -> u64;

        pub fn fasunqir_feed(
            board_sheet: *const u8,
            cycles: *mut u16,
            taken: *mut usize,
            verdict: *mut u64,
            cycle: u16,
            words: *mut u64,
            words_len: usize,
        ) -> u64;
    }
}

/// The intervals on which a formula node holds.
#[derive(Clone, Copy, Debug, PartialEq, Eq)]
pub struct Table {
    /// Row b has bit e set exactly if b ≤ e, both are cycles of the trace and the node holds on
    /// \[b,e\].
    pub rows: [u64; ROWS],
}

impl Table {
    /// Whether the node holds from cycle `b` to cycle `e`.
    pub fn holds(&self, b: usize, e: usize) -> bool {
        b < ROWS && e < ROWS && self.rows[b] >> e & 1 == 1
    }
}

/// An answer as it crosses the boundary: tag + 256 · value in the lower 32 bits, and in the upper 32
/// the advice of a verdict, or 0.
enum Answer {
    Refused(u8),
    Verdict(Verdict),
    Done(usize),
}

fn unpack(answer: u64) -> Answer {
    let value = (answer as u32 / 256) as usize;
    let verdict = |finding, advice| Answer::Verdict(Verdict { finding, advice });
    match (answer % 256, u8::try_from(answer >> 32)) {
        (0, Ok(0)) if (1..=LAST).contains(&value) => Answer::Refused(value as u8),
        (1, Ok(advice)) => verdict(Finding::Excused { clause: value }, advice),
        (2, Ok(advice)) => {
            let clause = value / 262_144;
            let (i, j, k) = (value / 4096 % 64, value / 64 % 64, value % 64);
            verdict(Finding::Broken(Place { clause, i, j, k }), advice)
        }
        (3, Ok(advice)) if value == 0 => verdict(Finding::Holds, advice),
        (4, Ok(0)) => Answer::Done(value),
        _ => panic!("no answer of the boundary: {answer:#x}"),
    }
}

/// The verdict of a sheet on a trace.
///
/// ```
/// use fasunqir::{bytes::check, Finding, Verdict};
///
/// # let sheet = [
/// #     0x00, 0x1E, 1, 1, 1, 0, 0, 2, 1, 3, 0, 0, 0, 0, 0, 16, 0, 0, 0, 0, 0,
/// #     3, 1, 0, 1, 0, 0, 0, 0, 0, 0, 0,
/// # ];
/// // The sheet of the crate's example: signal 0 is never high.
/// let quiet = [0x00, 0x06, 1, 1, 0, 0, 0, 0];
/// assert_eq!(check(&sheet, &quiet), Ok(Verdict { finding: Finding::Holds, advice: 0 }));
///
/// let two_signals = [0x00, 0x06, 1, 2, 0, 0, 0, 0];
/// assert_eq!(check(&sheet, &two_signals).unwrap_err().number(), 12);
/// ```
pub fn check(sheet: &[u8], trace: &[u8]) -> Result<Verdict, Error> {
    check_with(sheet, trace, &mut vec![0; WORDS])
}

/// [`check`] in lent words, [`WORDS`] or more; answered, it leaves them all zero, and refused, as
/// they were.
///
/// ```
/// # let sheet = [
/// #     0x00, 0x1E, 1, 1, 1, 0, 0, 2, 1, 3, 0, 0, 0, 0, 0, 16, 0, 0, 0, 0, 0,
/// #     3, 1, 0, 1, 0, 0, 0, 0, 0, 0, 0,
/// # ];
/// let mut words = vec![7; fasunqir::bytes::WORDS];
/// let trace = [0x00, 0x04, 1, 1, 0, 0];
/// assert!(fasunqir::bytes::check_with(&sheet, &trace, &mut words).is_ok());
/// assert!(words.iter().all(|&word| word == 0));
/// ```
pub fn check_with(sheet: &[u8], trace: &[u8], words: &mut [u64]) -> Result<Verdict, Error> {
    // Each pointer is of a live slice of the length that goes with it, and the operation keeps none.
    let answer = unsafe {
        boundary::fasunqir_check(
            sheet.as_ptr(),
            sheet.len(),
            trace.as_ptr(),
            trace.len(),
            words.as_mut_ptr(),
            words.len(),
        )
    };
    checked(Operation::Check, answer)
}

/// On which intervals formula node `node` of a sheet holds, name u marked at `cycles[u]`; the cycles
/// of names that the sheet doesn't have are ignored.
///
/// ```
/// # let sheet = [
/// #     0x00, 0x1E, 1, 1, 1, 0, 0, 2, 1, 3, 0, 0, 0, 0, 0, 16, 0, 0, 0, 0, 0,
/// #     3, 1, 0, 1, 0, 0, 0, 0, 0, 0, 0,
/// # ];
/// // Node 1 of the crate's example is ⟨signal 0⟩; the signal is high at cycle 1 of three.
/// let trace = [0x00, 0x08, 1, 1, 0, 0, 0, 1, 0, 0];
/// let table = fasunqir::bytes::table(&sheet, &trace, 1, [0, 0, 0]).unwrap();
/// assert!(table.holds(1, 2));
/// assert_eq!(table.rows[..4], [0, 0b110, 0, 0]);
/// ```
pub fn table(sheet: &[u8], trace: &[u8], node: usize, cycles: [usize; 3]) -> Result<Table, Error> {
    let mut rows = [0; ROWS];
    table_with(sheet, trace, node, cycles, &mut vec![0; WORDS], &mut rows)?;
    Ok(Table { rows })
}

/// [`table`] in lent words, [`WORDS`] or more, and into lent rows, [`ROWS`] or more; fewer of either
/// are refused by 15. Answered, it leaves the words all zero and the rows past the table as they
/// were; refused, it leaves both as they were.
///
/// ```
/// # let sheet = [
/// #     0x00, 0x1E, 1, 1, 1, 0, 0, 2, 1, 3, 0, 0, 0, 0, 0, 16, 0, 0, 0, 0, 0,
/// #     3, 1, 0, 1, 0, 0, 0, 0, 0, 0, 0,
/// # ];
/// let trace = [0x00, 0x04, 1, 1, 0, 1];
/// let (mut words, mut rows) = (vec![7; fasunqir::bytes::WORDS], vec![7; 65]);
/// fasunqir::bytes::table_with(&sheet, &trace, 1, [0; 3], &mut words, &mut rows).unwrap();
/// assert_eq!((rows[0], rows[1], rows[64]), (1, 0, 7));
///
/// let refusal = fasunqir::bytes::table_with(&sheet, &trace, 1, [0; 3], &mut words, &mut rows[..63]);
/// assert_eq!(refusal.unwrap_err().number(), 15);
/// ```
pub fn table_with(
    sheet: &[u8],
    trace: &[u8],
    node: usize,
    cycles: [usize; 3],
    words: &mut [u64],
    rows: &mut [u64],
) -> Result<(), Error> {
    let [c0, c1, c2] = cycles;
    // Each pointer is of a live slice of the length that goes with it, and the operation keeps none.
    let answer = unsafe {
        boundary::fasunqir_table(
            sheet.as_ptr(),
            sheet.len(),
            trace.as_ptr(),
            trace.len(),
            node,
            c0,
            c1,
            c2,
            words.as_mut_ptr(),
            words.len(),
            rows.as_mut_ptr(),
            rows.len(),
        )
    };
    filled(Operation::Table, answer)
}

/// A board on a sheet, with no cycles and no verdict; refused by the lowest of 1–9 that applies to the
/// sheet.
///
/// ```
/// let refusal = fasunqir::bytes::open(&[0x00, 0x01, 1]).unwrap_err();
/// assert_eq!(refusal.number(), 1);
/// ```
pub fn open(sheet: &[u8]) -> Result<Board, Error> {
    Board::open_bytes(sheet)
}

/// The QDDC formula of a sheet, as the bytes of a sheet of kind 2. It is true of a trace exactly
/// when the sheet's requirement is; advice is no part of it.
///
/// ```
/// # let sheet = [
/// #     0x00, 0x1E, 1, 1, 1, 0, 0, 2, 1, 3, 0, 0, 0, 0, 0, 16, 0, 0, 0, 0, 0,
/// #     3, 1, 0, 1, 0, 0, 0, 0, 0, 0, 0,
/// # ];
/// let formula = fasunqir::bytes::translate(&sheet).unwrap();
/// assert_eq!(formula[2..6], [1, 2, 1, 0]); // version 1, kind 2, one signal, no names
/// let nodes = u16::from_be_bytes([formula[6], formula[7]]) as usize;
/// assert_eq!(formula.len(), 9 + 6 * nodes);
/// ```
pub fn translate(sheet: &[u8]) -> Result<Vec<u8>, Error> {
    in_new_bytes(|out| translate_into(sheet, out))
}

/// [`translate`] into lent bytes, [`OUTPUT`] or more; gives the formula's length, and the bytes from
/// there on keep their values.
///
/// ```
/// # let sheet = [
/// #     0x00, 0x1E, 1, 1, 1, 0, 0, 2, 1, 3, 0, 0, 0, 0, 0, 16, 0, 0, 0, 0, 0,
/// #     3, 1, 0, 1, 0, 0, 0, 0, 0, 0, 0,
/// # ];
/// let mut out = vec![7; fasunqir::bytes::OUTPUT];
/// let length = fasunqir::bytes::translate_into(&sheet, &mut out).unwrap();
/// assert_eq!((out[3], out[length]), (2, 7));
///
/// let refusal = fasunqir::bytes::translate_into(&sheet, &mut out[..8191]);
/// assert_eq!(refusal.unwrap_err().number(), 14);
/// ```
pub fn translate_into(sheet: &[u8], out: &mut [u8]) -> Result<usize, Error> {
    // Each pointer is of a live slice of the length that goes with it, and the operation keeps none.
    let answer = unsafe {
        boundary::fasunqir_translate(sheet.as_ptr(), sheet.len(), out.as_mut_ptr(), out.len())
    };
    written(Operation::Translate, answer)
}

/// The stored bytes of a typed sheet. Refused by 18, 19 or 20, in this order, and then by the lowest
/// of 1–9 that applies to the sheet that was read.
///
/// ```
/// let text = b"3 0\n\
///     assume pref([[s2]]:)\n\
///     require implies(<s0> & slen = 5:, scount(s1) >= 1:)\n";
/// let sheet = fasunqir::bytes::read_text(text).unwrap();
/// assert_eq!(sheet[..9], [0x00, 0x4D, 1, 1, 3, 0, 0, 8, 2]); // 3 signals, 8 nodes, 2 clauses
///
/// let refusal = fasunqir::bytes::read_text(b"3 0\nrequire anti(<s0>)\n").unwrap_err();
/// assert_eq!(refusal.to_string(), "19: the text is outside the grammar");
/// ```
pub fn read_text(text: &[u8]) -> Result<Vec<u8>, Error> {
    in_new_bytes(|out| read_text_into(text, out))
}

/// [`read_text`] into lent bytes, [`OUTPUT`] or more; gives the sheet's length, and the bytes from
/// there on keep their values. Fewer are refused by 14, after all else.
///
/// ```
/// let text = b"1 0\nrequire anti(<s0>:)\n";
/// let mut out = vec![7; fasunqir::bytes::OUTPUT];
/// let length = fasunqir::bytes::read_text_into(text, &mut out).unwrap();
/// assert_eq!((length, out[3], out[length]), (32, 1, 7));
///
/// let refusal = fasunqir::bytes::read_text_into(text, &mut out[..8191]);
/// assert_eq!(refusal.unwrap_err().number(), 14);
/// ```
pub fn read_text_into(text: &[u8], out: &mut [u8]) -> Result<usize, Error> {
    // Each pointer is of a live slice of the length that goes with it, and the operation keeps none.
    let answer = unsafe {
        boundary::fasunqir_read_text(text.as_ptr(), text.len(), out.as_mut_ptr(), out.len())
    };
    written(Operation::ReadText, answer)
}

/// The verdict that an operation gave.
pub(crate) fn checked(operation: Operation, answer: u64) -> Result<Verdict, Error> {
    match unpack(answer) {
        Answer::Verdict(verdict) => Ok(verdict),
        Answer::Refused(number) => Err(Error { number, operation }),
        Answer::Done(_) => panic!("no answer of a check: {answer:#x}"),
    }
}

/// What an operation was lent is filled as it says, and there is no length to tell.
pub(crate) fn filled(operation: Operation, answer: u64) -> Result<(), Error> {
    match unpack(answer) {
        Answer::Done(0) => Ok(()),
        Answer::Refused(number) => Err(Error { number, operation }),
        _ => panic!("no answer of a table or a new board: {answer:#x}"),
    }
}

/// The length of the sheet that an operation wrote.
fn written(operation: Operation, answer: u64) -> Result<usize, Error> {
    match unpack(answer) {
        Answer::Done(length) => Ok(length),
        Answer::Refused(number) => Err(Error { number, operation }),
        Answer::Verdict(_) => panic!("no answer of a writer: {answer:#x}"),
    }
}

/// What an operation writes into bytes that are as many as it needs.
fn in_new_bytes(
    operation: impl FnOnce(&mut [u8]) -> Result<usize, Error>,
) -> Result<Vec<u8>, Error> {
    let mut out = vec![0; OUTPUT];
    let length = operation(&mut out)?;
    out.truncate(length);
    Ok(out)
}
