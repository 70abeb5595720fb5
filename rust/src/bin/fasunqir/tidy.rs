//! What mail programs do to a text, mended where `--tidy` asks for it. A text that needs nothing keeps
//! every byte, and nothing is said of it; a text that was mended needs nothing.

use crate::hints::{is_dash, is_invisible, is_odd_blank};
use crate::typing;

/// A typed sheet, mended, and what was mended.
pub fn sheet(text: &[u8]) -> (Vec<u8>, Vec<String>) {
    Mended::new(text, false).ended()
}

/// Minutes, mended, and what was mended. Their comments stay as they are, and the last needs no line end.
pub fn minutes(text: &[u8]) -> (Vec<u8>, Vec<String>) {
    Mended::new(text, true).ended()
}

/// A line without its end, with its number in the text, counted from 1.
struct Line {
    number: usize,
    bytes: Vec<u8>,
}

impl Line {
    fn is_empty(&self) -> bool {
        self.bytes.iter().all(|byte| matches!(byte, b' ' | b'\t'))
    }
}

/// A text while it is mended, and the lines in which each kind of thing was found.
struct Mended {
    minutes: bool,
    marked: bool,
    /// Whether the last line has its end.
    closed: bool,
    lines: Vec<Line>,
    returns: usize,
    quoted: usize,
    empty: usize,
    blanks: Vec<usize>,
    invisible: Vec<usize>,
    signs: Vec<usize>,
    dashes: Vec<usize>,
}

impl Mended {
    fn new(text: &[u8], minutes: bool) -> Mended {
        let mut rest = text;
        while let Some(after) = rest.strip_prefix(b"\xef\xbb\xbf") {
            rest = after;
        }
        let mut mended = Mended {
            minutes,
            marked: rest.len() < text.len(),
            closed: true,
            lines: vec![],
            returns: 0,
            quoted: 0,
            empty: 0,
            blanks: vec![],
            invisible: vec![],
            signs: vec![],
            dashes: vec![],
        };
        mended.split(rest);
        mended.characters();
        mended.quote_marks();
        if minutes {
            mended.lone_dashes();
        }
        mended.empty_lines();
        mended
    }

    /// Lines end in a line end, in one with carriage returns before it, or in carriage returns alone.
    fn split(&mut self, mut text: &[u8]) {
        while !text.is_empty() {
            let end = text.iter().position(|byte| matches!(byte, b'\r' | b'\n'));
            let (line, rest) = text.split_at(end.unwrap_or(text.len()));
            let returns = rest.iter().take_while(|&&byte| byte == b'\r').count();
            let after = returns + usize::from(rest.get(returns) == Some(&b'\n'));
            self.returns += usize::from(returns > 0);
            self.closed = after > 0;
            self.lines.push(Line { number: self.lines.len() + 1, bytes: line.to_vec() });
            text = &rest[after..];
        }
    }

    /// Blanks and signs that aren't plain, and characters that can't be seen.
    fn characters(&mut self) {
        let mut lines = std::mem::take(&mut self.lines);
        for line in lines.iter_mut().filter(|line| !line.bytes.is_ascii()) {
            let comment = line.bytes.iter().position(|&byte| byte == b'#' && self.minutes);
            let comment = line.bytes.split_off(comment.unwrap_or(line.bytes.len()));
            line.bytes = self.plain(line.number, &line.bytes);
            line.bytes.extend(comment);
        }
        self.lines = lines;
    }

    fn plain(&mut self, number: usize, text: &[u8]) -> Vec<u8> {
        let mut plain = vec![];
        for chunk in text.utf8_chunks() {
            for c in chunk.valid().chars() {
                let (found, typed) = match c {
                    c if is_odd_blank(c) => (&mut self.blanks, " "),
                    c if is_invisible(c) => (&mut self.invisible, ""),
                    '≥' if !self.minutes => (&mut self.signs, ">="),
                    '≤' if !self.minutes => (&mut self.signs, "<="),
                    c => {
                        plain.extend(c.encode_utf8(&mut [0; 4]).bytes());
                        continue;
                    }
                };
                plain.extend(typed.bytes());
                note(found, number);
            }
            plain.extend(chunk.invalid());
        }
        plain
    }

    /// A dash of whatever length is one where it is a minute by itself.
    fn lone_dashes(&mut self) {
        for line in self.lines.iter_mut().filter(|line| !line.bytes.is_ascii()) {
            let comment = line.bytes.iter().position(|&byte| byte == b'#');
            let (minute, comment) = line.bytes.split_at(comment.unwrap_or(line.bytes.len()));
            let Ok(minute) = std::str::from_utf8(minute) else { continue };
            let mut word = minute.trim_matches([' ', '\t', ',']).chars();
            if let (Some(dash), None) = (word.next(), word.next()) {
                if is_dash(dash) {
                    line.bytes = [minute.replace(dash, "-").as_bytes(), comment].concat();
                    self.dashes.push(line.number);
                }
            }
        }
    }

    /// The marks before quoted lines, as often as every line has one. Where only some have it, lines of
    /// one mail stand between those of another, and which of them are meant nobody here can tell.
    fn quote_marks(&mut self) {
        let marked = self.lines.iter().filter(|line| !line.is_empty()).map(|line| {
            let (marks, rest) = unquoted(&line.bytes, usize::MAX);
            (marks, rest.trim_ascii().is_empty())
        });
        // lines of marks alone are as deep as the others are
        let (bare, said): (Vec<_>, Vec<_>) = marked.partition(|&(_, empty)| empty);
        let least = said.iter().map(|&(marks, _)| marks).min();
        let depth = least.or_else(|| bare.iter().map(|&(marks, _)| marks).max()).unwrap_or(0);
        if depth > 0 {
            self.quoted = bare.len() + said.len();
        }
        for line in &mut self.lines {
            line.bytes = unquoted(&line.bytes, depth).1.to_vec();
        }
    }

    fn empty_lines(&mut self) {
        let before = self.lines.len();
        let last = self.lines.last().map(|line| line.number);
        self.lines.retain(|line| !line.is_empty());
        self.empty = before - self.lines.len();
        // where the last line is gone, the one before it has its end
        self.closed |= last != self.lines.last().map(|line| line.number);
    }

    /// The text, and a few words for each kind of thing that was mended.
    fn ended(self) -> (Vec<u8>, Vec<String>) {
        let mut told = vec![];
        let mut tell = |applies: bool, what: String| told.extend(applies.then_some(what));
        let is_open = !self.closed && !self.lines.is_empty();
        let plural = |count: usize| if count == 1 { "" } else { "s" };
        let (returns, quoted, empty) = (self.returns, self.quoted, self.empty);
        tell(self.marked, "a byte-order mark before the text".to_string());
        tell(returns > 0, format!("carriage returns at {returns} line end{}", plural(returns)));
        tell(quoted > 0, format!("quote marks before {quoted} line{}", plural(quoted)));
        tell(empty > 0, format!("{empty} empty line{}; lines are counted without", plural(empty)));
        for (found, what) in [
            (&self.blanks, "no-break blanks"),
            (&self.invisible, "invisible characters"),
            (&self.signs, "'≥' or '≤'"),
            (&self.dashes, "long dashes"),
        ] {
            tell(!found.is_empty(), format!("{what} in {}", typing::lines(found)));
        }
        tell(is_open && !self.minutes, "no line end after the last line".to_string());

        let mut text = vec![];
        for line in &self.lines {
            text.extend(&line.bytes);
            text.push(b'\n');
        }
        if is_open && self.minutes {
            text.pop();
        }
        (text, told)
    }
}

/// A line without the marks before it, up to so many, and how many these are. No line of a sheet or of
/// minutes begins with such a mark; `>=` is none.
fn unquoted(line: &[u8], most: usize) -> (usize, &[u8]) {
    let (mut marks, mut rest) = (0, line);
    while marks < most {
        let start = rest.trim_ascii_start();
        let Some(after) = start.strip_prefix(b">").filter(|after| !after.starts_with(b"=")) else {
            break;
        };
        rest = after.strip_prefix(b" ").unwrap_or(after);
        marks += 1;
    }
    (marks, rest)
}

/// Notes a line once.
fn note(found: &mut Vec<usize>, number: usize) {
    if found.last() != Some(&number) {
        found.push(number);
    }
}
