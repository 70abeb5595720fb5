//! A board of the library, in its Rust type and piece by piece as C has it, beside the reference.

use super::{as_reference, kept, lent, number, words_after};
use crate::build::Trace;
use crate::reference::board;
use crate::reference::clauses::{Finding, Verdict};
use crate::reference::Number;
use fasunqir::{Board, CYCLES, SHEET};

extern "C" {
    fn fasunqir_open(
        sheet: *const u8,
        sheet_len: usize,
        board_sheet: *mut u8,
        cycles: *mut u16,
        taken: *mut usize,
        verdict: *mut u64,
    ) -> u64;

    fn fasunqir_feed(
        board_sheet: *const u8,
        cycles: *mut u16,
        taken: *mut usize,
        verdict: *mut u64,
        cycle: u16,
        words: *mut u64,
        words_len: usize,
    ) -> u64;
}

/// Something lent, with bytes around it that nobody may write.
#[derive(Clone, Debug, PartialEq, Eq)]
#[repr(C)]
struct Fenced<T> {
    before: [u8; 64],
    lent: T,
    after: [u8; 64],
}

impl<T> Fenced<T> {
    fn new(lent: T) -> Self {
        Fenced { before: [0xA5; 64], lent, after: [0x5A; 64] }
    }
}

/// The pieces of a board. Its verdict may be any number.
#[derive(Clone, Debug, PartialEq, Eq)]
pub struct Pieces {
    pub sheet: [u8; SHEET],
    pub cycles: [u16; CYCLES],
    pub taken: usize,
    pub verdict: u64,
}

impl Pieces {
    /// A board of a sheet that fits, and the cycles that it has taken.
    pub fn new(sheet: &[u8], taken: &[u16]) -> Self {
        let mut pieces =
            Pieces { sheet: [0; SHEET], cycles: [0; CYCLES], taken: taken.len(), verdict: 0 };
        pieces.sheet[..sheet.len()].copy_from_slice(sheet);
        pieces.cycles[..taken.len()].copy_from_slice(taken);
        pieces
    }

    /// Lends the pieces, each in its fence, to a call of the library.
    fn lend(
        &mut self,
        call: impl FnOnce(&mut [u8; SHEET], &mut [u16; CYCLES], &mut usize, &mut u64) -> u64,
    ) -> u64 {
        let mut sheet = Fenced::new(self.sheet);
        let mut cycles = Fenced::new(self.cycles);
        let mut taken = Fenced::new(self.taken);
        let mut verdict = Fenced::new(self.verdict);
        let answer = call(&mut sheet.lent, &mut cycles.lent, &mut taken.lent, &mut verdict.lent);
        *self = Pieces {
            sheet: sheet.lent,
            cycles: cycles.lent,
            taken: taken.lent,
            verdict: verdict.lent,
        };
        let whole = sheet == Fenced::new(self.sheet)
            && cycles == Fenced::new(self.cycles)
            && taken == Fenced::new(self.taken)
            && verdict == Fenced::new(self.verdict);
        assert!(whole, "something was written around what was lent");
        answer
    }

    fn open(&mut self, from: &[u8]) -> u64 {
        // SAFETY: the pointers are of a live slice of the length that goes with it and of arrays as
        // long as the operation asks.
        self.lend(|sheet, cycles, taken, verdict| unsafe {
            fasunqir_open(
                from.as_ptr(),
                from.len(),
                sheet.as_mut_ptr(),
                cycles.as_mut_ptr(),
                taken,
                verdict,
            )
        })
    }

    fn feed(&mut self, cycle: u16, words: &mut [u64]) -> u64 {
        // SAFETY: as above.
        self.lend(|sheet, cycles, taken, verdict| unsafe {
            fasunqir_feed(
                sheet.as_ptr(),
                cycles.as_mut_ptr(),
                taken,
                verdict,
                cycle,
                words.as_mut_ptr(),
                words.len(),
            )
        })
    }
}

/// An answer as it crosses the boundary.
fn packed(answer: Result<Verdict, Number>) -> u64 {
    let (tag, value, advice) = match answer {
        Err(number) => (0, number as usize, 0),
        Ok(Verdict { finding, advice }) => match finding {
            Finding::Excused(clause) => (1, clause, advice),
            Finding::Broken(clause, i, j, k) => {
                (2, clause * 262_144 + i * 4096 + j * 64 + k, advice)
            }
            Finding::Holds => (3, 0, advice),
        },
    };
    tag + 256 * value as u64 + ((advice as u64) << 32)
}

/// One board three times.
#[derive(Clone)]
pub struct Boards {
    library: Board,
    pieces: Pieces,
    reference: board::Board,
}

impl Boards {
    /// Opens a board. Opened, it has the sheet, then zeros, no cycle and no verdict, whatever the
    /// lent pieces held; refused, these are as they were.
    pub fn open(sheet: &[u8]) -> Result<Boards, Number> {
        let replay = || format!("open\n{}", kept(sheet, &[]));
        let lent =
            Pieces { sheet: [0xEE; SHEET], cycles: [0xBEEF; CYCLES], taken: 99, verdict: u64::MAX };
        let mut pieces = lent.clone();
        let answer = pieces.open(sheet);
        let library = number(fasunqir::bytes::open(sheet));
        match board::Board::open(sheet) {
            Ok(reference) => {
                assert_eq!(answer, 4, "{}", replay());
                assert_eq!(pieces, Pieces::new(sheet, &[]), "{}", replay());
                let library = library.unwrap_or_else(|n| panic!("refused {n}\n{}", replay()));
                let boards = Boards { library, pieces, reference };
                boards.are_one(replay);
                Ok(boards)
            }
            Err(expected) => {
                assert_eq!(answer, packed(Err(expected)), "{}", replay());
                assert_eq!(library.err(), Some(expected), "{}", replay());
                assert!(pieces == lent, "pieces changed by a refusal\n{}", replay());
                Err(expected)
            }
        }
    }

    /// A board made by hand.
    pub fn by_hand(pieces: Pieces) -> Boards {
        let Pieces { sheet, cycles, taken, .. } = pieces;
        Boards {
            library: Board::from_parts(sheet, cycles, taken),
            reference: board::Board::by_hand(&sheet, &cycles, taken),
            pieces,
        }
    }

    /// What the board holds.
    pub fn pieces(&self) -> &Pieces {
        &self.pieces
    }

    /// Where its sheet ends.
    pub fn sheet_end(&self) -> usize {
        self.reference.sheet.len()
    }

    /// All three hold the same cycles and have the same verdict.
    fn are_one(&self, replay: impl Fn() -> String) {
        let Boards { library, pieces, reference } = self;
        let (sheet, cycles, taken) = library.parts();
        let parts = Pieces { sheet: *sheet, cycles: *cycles, taken, verdict: pieces.verdict };
        assert_eq!(parts, *pieces, "{}", replay());
        assert_eq!(library.cycles(), &reference.cycles[..taken.min(CYCLES)], "{}", replay());
        assert_eq!(library.verdict().map(as_reference), reference.verdict, "{}", replay());
    }

    /// Feeds all three in so many lent words, and the same answer comes. Taken, the cycle stands after
    /// the others, the verdict is the board's and is that of the check on the stored trace of the
    /// cycles taken, and the words are zero; refused, nothing changes.
    pub fn feed(&mut self, cycle: u16, words: usize) -> Result<Verdict, Number> {
        let old = self.clone();
        let replay = || {
            let Boards { pieces, reference, .. } = &old;
            let cycles = [&reference.cycles[..], &[cycle]].concat();
            let trace = Trace::new(pieces.sheet[4], &cycles).bytes();
            let kept = kept(&reference.sheet, &trace);
            format!("feed of the last cycle, {} taken, {words} words\n{kept}", pieces.taken)
        };
        let expected = self.reference.feed(cycle, words);
        let before = lent(words);
        let mut after = before.clone();
        let found = number(self.library.feed_with(cycle, &mut after)).map(as_reference);
        assert_eq!(found, expected, "{}", replay());
        words_after(&found, &before, &after, replay);
        after.copy_from_slice(&before);
        assert_eq!(self.pieces.feed(cycle, &mut after), packed(expected), "{}", replay());
        words_after(&found, &before, &after, replay);
        match expected {
            Ok(_) => {
                let mut fed = old.pieces.clone();
                fed.cycles[fed.taken] = cycle;
                fed.taken += 1;
                fed.verdict = packed(expected);
                assert_eq!(self.pieces, fed, "{}", replay());
                let board::Board { sheet, cycles, .. } = &self.reference;
                let trace = Trace::new(sheet[4], cycles).bytes();
                let check = number(fasunqir::bytes::check(sheet, &trace)).map(as_reference);
                assert_eq!(check, expected, "{}", replay());
            }
            Err(_) => {
                let same = self.library == old.library && self.pieces == old.pieces;
                assert!(same, "board changed by a refusal\n{}", replay());
            }
        }
        self.are_one(replay);
        found
    }
}
