//! A sheet laid over cycles as they arrive.

use crate::bytes::{boundary, checked, filled, WORDS};
#[cfg(doc)]
use crate::Finding;
use crate::{Error, Operation, Sheet, Verdict};

/// Bytes that a board keeps its sheet in, as many as the longest sheet has: 64 nodes and 8 clauses.
pub const SHEET: usize = 9 + 6 * 64 + 11 * 8;

/// Cycles that a board takes, at most.
pub const CYCLES: usize = 64;

/// An open offer: a sheet, the cycles that were taken so far, and the verdict of [`check`] on them.
/// Each [`feed`] takes one cycle more, or refuses it and leaves the board as it was.
///
/// ```
/// use fasunqir::{Board, Sheet};
///
/// // The offer clock: as long as the link is up, an offer has its reply within five minutes.
/// let (offer, reply, link) = (1 << 0, 1 << 1, 1 << 2);
/// let sheet: Sheet = "3 0\n\
///     assume pref([[s2]]:)\n\
///     require implies(<s0> & slen = 5:, scount(s1) >= 1:)\n"
///     .parse()
///     .unwrap();
///
/// let mut board = Board::open(&sheet);
/// assert_eq!(board.verdict(), None); // no minute yet
///
/// // The offer is sent in minute 0. For five minutes the reply may still come, and none is late.
/// for minute in [link | offer, link, link, link, link] {
///     assert_eq!(board.feed(minute).unwrap().to_string(), "HOLDS 0");
/// }
/// // The sheet has three signals, so a minute with a fourth is refused, and the board is as it was.
/// assert_eq!(board.feed(1 << 3).unwrap_err().number(), 21);
/// assert_eq!(board.cycles().len(), 5);
///
/// // Minute 5 ends the five minutes without a reply: clause 1 is broken from minute 0 to minute 5.
/// assert_eq!(board.feed(link).unwrap().to_string(), "BROKEN 1 0 5 5 0");
/// // The reply comes too late to change that. Only the link's being down excuses the centre.
/// assert_eq!(board.feed(link | reply).unwrap().to_string(), "BROKEN 1 0 5 5 0");
/// board.feed(0).unwrap();
/// assert_eq!(board.verdict().unwrap().to_string(), "EXCUSED 0 0");
/// ```
///
/// [`check`]: Sheet::check
/// [`feed`]: Board::feed
#[derive(Clone, Debug, PartialEq, Eq)]
pub struct Board {
    sheet: [u8; SHEET],
    cycles: [u16; CYCLES],
    taken: usize,
    /// The verdict last given, as it crosses the boundary, or 0 where there is none.
    verdict: u64,
}

impl Board {
    /// A board on a sheet, with no cycles and no verdict.
    pub fn open(sheet: &Sheet) -> Board {
        sheet.board()
    }

    /// A board on the bytes of a sheet.
    pub(crate) fn open_bytes(sheet: &[u8]) -> Result<Board, Error> {
        let mut board = Board::from_parts([0; SHEET], [0; CYCLES], 0);
        // The sheet's pointer is of a live slice of its length, the others of arrays as long as the
        // operation asks, and it keeps none.
        let answer = unsafe {
            boundary::fasunqir_open(
                sheet.as_ptr(),
                sheet.len(),
                board.sheet.as_mut_ptr(),
                board.cycles.as_mut_ptr(),
                &mut board.taken,
                &mut board.verdict,
            )
        };
        filled(Operation::Open, answer)?;
        Ok(board)
    }

    /// A board made by hand, without a verdict. Its sheet ends where its bytes 0–1 say, or with the
    /// array; what comes after it may be anything, and so may the cycles from `taken` on. Nothing is
    /// asked here: each feed refuses a board whose sheet doesn't pass, by the lowest of 1–9, and one
    /// that has taken more than [`CYCLES`] or has a bit from s up in a taken cycle, by 13. Any other
    /// is as good as one that was fed these cycles.
    ///
    /// ```
    /// use fasunqir::{Board, CYCLES, SHEET};
    ///
    /// let typed = fasunqir::bytes::read_text(b"1 0\nrequire anti(slen = 2:)\n").unwrap();
    /// let mut sheet = [0; SHEET];
    /// sheet[..typed.len()].copy_from_slice(&typed);
    ///
    /// // Two cycles have been taken; the third makes an interval of length 2.
    /// let mut board = Board::from_parts(sheet, [0; CYCLES], 2);
    /// assert_eq!(board.verdict(), None);
    /// assert_eq!(board.feed(0).unwrap().to_string(), "BROKEN 0 0 2 2 0");
    ///
    /// let mut no_board = Board::from_parts(sheet, [0; CYCLES], 65);
    /// assert_eq!(no_board.feed(0).unwrap_err().number(), 13);
    /// ```
    pub fn from_parts(sheet: [u8; SHEET], cycles: [u16; CYCLES], taken: usize) -> Board {
        Board { sheet, cycles, taken, verdict: 0 }
    }

    /// What the board is made from, as [`Board::from_parts`] takes it.
    pub fn parts(&self) -> (&[u8; SHEET], &[u16; CYCLES], usize) {
        (&self.sheet, &self.cycles, self.taken)
    }

    /// The cycles that were taken. A board made by hand may say that it took more than it has room
    /// for; all that it has are given then.
    pub fn cycles(&self) -> &[u16] {
        &self.cycles[..self.taken.min(CYCLES)]
    }

    /// The verdict last given, which is that of [`check`](Sheet::check) on the trace of the cycles
    /// taken; none where no cycle was taken since the board was opened or made by hand.
    pub fn verdict(&self) -> Option<Verdict> {
        match self.verdict {
            0 => None,
            given => checked(Operation::Feed, given).ok(),
        }
    }

    /// Takes a cycle, bit k for signal k, and gives the verdict on the cycles taken so far with this
    /// one. Refused by the first that applies of 1–9 and 13, where the board was made by hand and
    /// doesn't pass; 21, where the cycle has a bit from s up; 22, where 64 are taken already. The
    /// board is then as it was.
    ///
    /// What is broken stays broken: after [`Finding::Broken`] comes `Broken`, there or at an earlier
    /// place, or [`Finding::Excused`], and after `Excused` nothing else; an advice bit stays set.
    ///
    /// ```
    /// let sheet = "2 0\nrequire anti(<s0>:)\n".parse().unwrap();
    /// let mut board = fasunqir::Board::open(&sheet);
    /// for (minute, cycle) in [0b00, 0b10, 0b01].into_iter().enumerate() {
    ///     match board.feed(cycle) {
    ///         Ok(verdict) => println!("{minute}  {verdict}"),
    ///         Err(refusal) => println!("minute {minute} is left out: {refusal}"),
    ///     }
    /// }
    /// assert_eq!(board.cycles(), [0b00, 0b10, 0b01]);
    /// assert_eq!(board.verdict().unwrap().to_string(), "BROKEN 0 2 2 2 0");
    /// ```
    pub fn feed(&mut self, cycle: u16) -> Result<Verdict, Error> {
        self.feed_with(cycle, &mut vec![0; WORDS])
    }

    /// [`Board::feed`] in lent words, [`WORDS`] or more; fewer are refused by 15, after 13 and before
    /// 21. Answered, it leaves them all zero, and refused, as they were.
    ///
    /// ```
    /// let sheet = "1 0\nrequire anti(<s0>:)\n".parse().unwrap();
    /// let mut board = fasunqir::Board::open(&sheet);
    /// let mut words = vec![7; fasunqir::bytes::WORDS];
    /// for cycle in [0, 0, 1] {
    ///     board.feed_with(cycle, &mut words).unwrap();
    ///     assert!(words.iter().all(|&word| word == 0));
    /// }
    /// assert_eq!(board.feed_with(2, &mut words[1..]).unwrap_err().number(), 15);
    /// ```
    pub fn feed_with(&mut self, cycle: u16, words: &mut [u64]) -> Result<Verdict, Error> {
        // The pointers are of arrays as long as the operation asks and of a live slice of the length
        // that goes with it, and it keeps none.
        let answer = unsafe {
            boundary::fasunqir_feed(
                self.sheet.as_ptr(),
                self.cycles.as_mut_ptr(),
                &mut self.taken,
                &mut self.verdict,
                cycle,
                words.as_mut_ptr(),
                words.len(),
            )
        };
        checked(Operation::Feed, answer)
    }
}
