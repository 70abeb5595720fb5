//! What the programs write for their input.

use super::board::Board;
use super::clauses::{Finding, Verdict};
use super::stored::field;
use super::Number;

/// The sheet ends where its length field says, or with the input; the rest is the trace, or the
/// minutes of a board.
fn split(input: &[u8]) -> (&[u8], &[u8]) {
    let end = if input.len() < 2 { input.len() } else { input.len().min(2 + field(input, 0)) };
    input.split_at(end)
}

fn refused(number: Number) -> String {
    format!("REFUSED {number}\n")
}

/// The answer of `sheetcheck`, which reads the first 1,024 bytes and no more.
pub fn verdict(input: &[u8]) -> Result<Verdict, Number> {
    let (sheet, trace) = split(&input[..input.len().min(1024)]);
    super::check(sheet, trace, 4096)
}

/// The line of a verdict, which ends with a space and the advice byte in decimal, or of a refusal.
fn told(answer: Result<Verdict, Number>) -> String {
    let Verdict { finding, advice } = match answer {
        Ok(verdict) => verdict,
        Err(number) => return refused(number),
    };
    match finding {
        Finding::Holds => format!("HOLDS {advice}\n"),
        Finding::Excused(clause) => format!("EXCUSED {clause} {advice}\n"),
        Finding::Broken(clause, i, j, k) => format!("BROKEN {clause} {i} {j} {k} {advice}\n"),
    }
}

/// The line of `sheetcheck`.
pub fn line(input: &[u8]) -> String {
    told(verdict(input))
}

/// The answers of `sheetboard`: one to each whole minute, of two bytes, after the sheet; or the
/// refusal of the sheet, which is the end.
pub type Answers = Result<Vec<Result<Verdict, Number>>, Number>;

pub fn answers(input: &[u8]) -> Answers {
    let (sheet, minutes) = split(input);
    let mut board = Board::open(sheet)?;
    let minutes = minutes.chunks_exact(2).map(|word| field(word, 0) as u16);
    Ok(minutes.map(|minute| board.feed(minute, 4096)).collect())
}

/// The lines of `sheetboard`.
pub fn lines(answers: Answers) -> Vec<String> {
    match answers {
        Ok(answers) => answers.into_iter().map(told).collect(),
        Err(number) => vec![refused(number)],
    }
}

/// The page of `sheettable`, which reads five bytes more: a node in two, then a byte for each name's
/// cycle. Those that are missing count as zero.
pub fn page(input: &[u8]) -> Result<String, String> {
    let input = &input[..input.len().min(1029)];
    let byte = |at: usize| input.get(at).map_or(0, |&byte| byte as usize);
    let (sheet, trace) = split(&input[input.len().min(5)..]);
    let cycles = [byte(2), byte(3), byte(4)];
    super::table(sheet, trace, byte(0) * 256 + byte(1), cycles, 4096, 64)
        .map(|rows| rows.iter().map(|row| format!("{row:016x}\n")).collect())
        .map_err(refused)
}

/// The answer of `sheettext`, which holds 65,536 bytes; a longer text gets 0, which is no number of
/// the papers.
pub fn text(input: &[u8]) -> Result<Vec<u8>, Number> {
    if input.len() > 65_536 {
        return Err(0);
    }
    super::text::read_text(input, 8192)
}

/// What `sheettext` writes.
pub fn stored(input: &[u8]) -> Vec<u8> {
    text(input).unwrap_or_else(|number| refused(number).into_bytes())
}

/// The sheet that `sheetformula` reads, all of the first 1,024 bytes, or the line of its refusal.
pub fn sheet(input: &[u8]) -> Result<super::Sheet, String> {
    super::translate(&input[..input.len().min(1024)], 8192).map_err(refused)
}
