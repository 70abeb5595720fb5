//! The board of request 6: a list of the cycles taken. Each feed asks the refusals in their order and
//! checks the whole list anew.

use super::clauses::{self, Verdict};
use super::stored::{self, field};
use super::Number;

#[derive(Clone, Debug)]
pub struct Board {
    pub sheet: Vec<u8>,
    pub cycles: Vec<u16>,
    /// The verdict last given.
    pub verdict: Option<Verdict>,
}

impl Board {
    pub fn open(sheet: &[u8]) -> Result<Board, Number> {
        stored::sheet(sheet)?;
        Ok(Board { sheet: sheet.to_vec(), cycles: vec![], verdict: None })
    }

    /// A board that nobody opened. Its sheet ends where its length field says, or with the bytes; of
    /// the cycles the first `taken` are held. More than 64 are too many, so of more than there are 65
    /// stand for all.
    pub fn by_hand(sheet: &[u8], cycles: &[u16], taken: usize) -> Board {
        let end = sheet.len().min(2 + field(sheet, 0));
        let held = cycles.iter().copied().chain([0; 65]).take(taken.min(65));
        Board { sheet: sheet[..end].to_vec(), cycles: held.collect(), verdict: None }
    }

    /// The verdict with one cycle more, for so many lent words, or the first refusal that applies.
    pub fn feed(&mut self, cycle: u16, words: usize) -> Result<Verdict, Number> {
        let sheet = stored::sheet(&self.sheet)?;
        let has_bit_from_s_up = |cycle: u16| (cycle as usize) >= 1 << sheet.signals;
        if self.cycles.len() > 64 || self.cycles.iter().any(|&held| has_bit_from_s_up(held)) {
            return Err(13);
        }
        if words < 4096 {
            return Err(15);
        }
        if has_bit_from_s_up(cycle) {
            return Err(21);
        }
        if self.cycles.len() == 64 {
            return Err(22);
        }
        self.cycles.push(cycle);
        let verdict = clauses::verdict(&sheet, &self.cycles);
        self.verdict = Some(verdict);
        Ok(verdict)
    }
}
