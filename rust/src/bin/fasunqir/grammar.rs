//! A second reader of the lines of a typed sheet, for words about mistakes only: where a line can't go
//! on by the grammar of docs/FORMAT.md, and what could stand there. What is accepted the library alone
//! decides.

use fasunqir::Type;

/// The first place where a line can't go on.
#[derive(Clone, Debug, PartialEq, Eq)]
pub struct Stop {
    /// A byte of the line, or its length.
    pub at: usize,
    pub wants: Wants,
}

/// What could stand at a place.
#[derive(Clone, Debug, PartialEq, Eq)]
pub enum Wants {
    Role,
    Piece,
    /// The number that a count or length is compared with.
    Number,
    /// Anything else, in words.
    Other(String),
    /// What stands there is wrong whatever follows: the whole sentence.
    Wrong(String),
    /// The reader doesn't go as deep as that.
    Unknown,
}

impl Wants {
    /// In words, to be put after "expected".
    pub fn words(&self) -> Option<&str> {
        match self {
            Wants::Role => Some("'assume' or 'require'"),
            Wants::Piece => Some(
                "a piece of a formula ('<', '[', '[[', '{{', '(', slen, scount, sdur, draw, at or gap)",
            ),
            Wants::Number => Some("a number after the comparison"),
            Wants::Other(words) => Some(words),
            Wants::Wrong(_) | Wants::Unknown => None,
        }
    }
}

type Read<T> = Result<T, Stop>;

/// A number or word that may be out of range, and where it stands.
#[derive(Clone, Copy, Debug, PartialEq, Eq)]
pub struct Word {
    pub at: usize,
    /// The part that it stands in, counted from 1.
    pub part: usize,
    pub said: Said,
}

#[derive(Clone, Copy, Debug, PartialEq, Eq)]
pub enum Said {
    Signal(usize),
    /// A name in a formula.
    Name(usize),
    /// A name after a part's colon.
    Listed(usize),
    Symbol(usize),
    Gap(usize, usize),
}

/// What a clause line says, as far as refusals go by it.
#[derive(Clone, Debug, Default, PartialEq, Eq)]
pub struct Clause {
    pub words: Vec<Word>,
    /// Where the word or sign of each node stands, in the nodes' order.
    pub nodes: Vec<usize>,
}

/// The two numbers of a first line, and where they stand.
#[derive(Clone, Copy, Debug, PartialEq, Eq)]
pub struct Counts {
    pub signals: usize,
    pub names: usize,
    pub signals_at: usize,
    pub names_at: usize,
}

/// What a first line says.
pub fn counts(line: &[u8]) -> Read<Counts> {
    let mut reader = Reader::new(line);
    let both = "two numbers, how many signals there are and how many names, such as '3 0'";
    let (signals_at, signals) = reader.number(both)?;
    let second = "a blank and a second number, how many names there are";
    if !reader.line.get(reader.at).is_some_and(is_blank) {
        return reader.wants(second);
    }
    let (names_at, names) = reader.number(second)?;
    reader.end("the end of the line: the first has two numbers")?;
    Ok(Counts { signals, names, signals_at, names_at })
}

/// What a clause line says.
pub fn clause(line: &[u8]) -> Read<Clause> {
    let mut reader = Reader::new(line);
    if !reader.word("assume") && !reader.word("require") {
        return reader.stops(Wants::Role);
    }
    let Some(kind) = TYPES.into_iter().find(|kind| reader.word(kind.word())) else {
        return reader.wants("a type of clause (pref, init, anti, implies, follows or triggers)");
    };
    reader.sign("(", &format!("'(' and the parts of {}", kind.word()))?;
    for part in 1..=kind.parts() {
        reader.part = part;
        reader.part()?;
        reader.after_part(kind)?;
    }
    reader.end("the end of the line, as the clause is closed")?;
    Ok(reader.clause)
}

/// Where the proposition that begins at a place, one without joiners, ends.
pub fn single_end(line: &[u8], at: usize) -> Option<usize> {
    let mut reader = Reader { at, ..Reader::new(line) };
    reader.single().ok()?;
    Some(reader.at)
}

const TYPES: [Type; 6] =
    [Type::Pref, Type::Init, Type::Anti, Type::Implies, Type::Follows, Type::Triggers];

/// Round brackets that the reader follows, one inside the other; the library refuses more than 32.
const DEPTH: usize = 40;

/// Signs of two bytes, one sign wherever they stand together.
const PAIRS: [&str; 6] = ["[[", "]]", "{{", "}}", "<=", ">="];

pub fn is_blank(byte: &u8) -> bool {
    matches!(byte, b' ' | b'\t')
}

/// The sign that a text begins with, of one byte or two.
pub fn sign(text: &[u8]) -> &[u8] {
    let pair = PAIRS.iter().any(|pair| text.starts_with(pair.as_bytes()));
    &text[..text.len().min(if pair { 2 } else { 1 })]
}

/// The digits that a text begins with.
fn digits(text: &[u8]) -> &[u8] {
    let end = text.iter().position(|byte| !byte.is_ascii_digit()).unwrap_or(text.len());
    &text[..end]
}

/// What digits say, if it is no more than a number may be.
fn value(digits: &[u8]) -> Option<usize> {
    digits.iter().try_fold(0, |value, digit| {
        Some(10 * value + usize::from(digit - b'0')).filter(|&value| value <= 65_535)
    })
}

struct Reader<'t> {
    line: &'t [u8],
    at: usize,
    depth: usize,
    part: usize,
    clause: Clause,
}

impl<'t> Reader<'t> {
    fn new(line: &'t [u8]) -> Reader<'t> {
        Reader { line, at: 0, depth: 0, part: 0, clause: Clause::default() }
    }

    /// What comes after the blanks that stand here.
    fn rest(&mut self) -> &'t [u8] {
        while self.line.get(self.at).is_some_and(is_blank) {
            self.at += 1;
        }
        &self.line[self.at..]
    }

    /// It stops here; where only blanks are left, before them.
    fn stops<T>(&mut self, wants: Wants) -> Read<T> {
        if self.rest().is_empty() {
            while self.at > 0 && is_blank(&self.line[self.at - 1]) {
                self.at -= 1;
            }
        }
        Err(Stop { at: self.at, wants })
    }

    fn wants<T>(&mut self, words: &str) -> Read<T> {
        self.stops(Wants::Other(words.to_string()))
    }

    fn end(&mut self, words: &str) -> Read<()> {
        if self.rest().is_empty() {
            Ok(())
        } else {
            self.wants(words)
        }
    }

    /// Takes a word, after which no blank need stand.
    fn word(&mut self, word: &str) -> bool {
        let there = self.rest().starts_with(word.as_bytes());
        if there {
            self.at += word.len();
        }
        there
    }

    /// Takes a sign, and gives its place.
    fn is_sign(&mut self, wanted: &str) -> Option<usize> {
        let there = sign(self.rest()) == wanted.as_bytes();
        there.then(|| {
            self.at += wanted.len();
            self.at - wanted.len()
        })
    }

    fn sign(&mut self, wanted: &str, words: &str) -> Read<()> {
        match self.is_sign(wanted) {
            Some(_) => Ok(()),
            None => self.wants(words),
        }
    }

    /// A number and its place.
    fn number(&mut self, words: &str) -> Read<(usize, usize)> {
        let digits = digits(self.rest());
        if digits.is_empty() {
            return self.wants(words);
        }
        match value(digits) {
            Some(value) => {
                self.at += digits.len();
                Ok((self.at - digits.len(), value))
            }
            None => self.stops(Wants::Wrong("the number is over 65,535".to_string())),
        }
    }

    fn node(&mut self, at: usize) {
        self.clause.nodes.push(at);
    }

    fn says(&mut self, at: usize, said: Said) {
        self.clause.words.push(Word { at, part: self.part, said });
    }

    /// A letter and its number, as signals and names have it; no word of the grammar goes on with a digit.
    fn lettered(&mut self, letter: u8, what: &str, last: usize) -> Read<(usize, usize)> {
        let letter = letter as char;
        let rest = self.rest();
        if rest.first() != Some(&(letter as u8)) {
            return self.wants(&format!("a {what}, {letter}0 to {letter}{last}"));
        }
        let digits = digits(&rest[1..]);
        let known = (0..=last).find(|k| k.to_string().as_bytes() == digits);
        if let Some(k) = known {
            self.at += 1 + digits.len();
            return Ok((self.at - 1 - digits.len(), k));
        }
        if digits.is_empty() {
            return self.wants(&format!("a {what}, {letter}0 to {letter}{last}"));
        }
        let zeros = digits.len() > 1 && digits[0] == b'0';
        let shown = String::from_utf8_lossy(&digits[..digits.len().min(12)]);
        let dots = if digits.len() > 12 { "..." } else { "" };
        let why = if zeros { ", without further zeros" } else { "" };
        self.stops(Wants::Wrong(format!(
            "'{letter}{shown}{dots}' is no {what}: they are {letter}0 to {letter}{last}{why}"
        )))
    }

    fn signal(&mut self) -> Read<()> {
        let (at, k) = self.lettered(b's', "signal", 15)?;
        self.says(at, Said::Signal(k));
        Ok(())
    }

    fn name(&mut self) -> Read<()> {
        let (at, u) = self.lettered(b'u', "name", 2)?;
        self.says(at, Said::Name(u));
        Ok(())
    }

    /// A formula, its colon and its names.
    fn part(&mut self) -> Read<()> {
        self.formula()?;
        let colon = "':' and the names of the part, if it has any, or '^', '&' or '|'";
        self.sign(":", colon)?;
        let mut listed = [false; 3];
        while self.rest().first() == Some(&b'u') {
            let (at, u) = self.lettered(b'u', "name", 2)?;
            if listed[u] {
                self.at = at;
                return self.stops(Wants::Wrong(format!("u{u} is listed twice")));
            }
            listed[u] = true;
            self.says(at, Said::Listed(u));
        }
        Ok(())
    }

    /// The comma after a part, or the bracket after the last.
    fn after_part(&mut self, kind: Type) -> Read<()> {
        let (word, parts, part) = (kind.word(), kind.parts(), self.part);
        if part < parts {
            let next = part + 1;
            let words = format!("',' and part {next} ({word} has {parts}), or a name");
            return self.sign(",", &words);
        }
        let all = if parts == 1 { "the one part" } else { "all parts" };
        self.sign(")", &format!("')' after {all} of {word}, or a name"))
    }

    fn formula(&mut self) -> Read<()> {
        self.joined("|", |reader| reader.joined("&", |reader| reader.joined("^", Reader::piece)))
    }

    fn proposition(&mut self) -> Read<()> {
        self.joined("|", |reader| reader.joined("&", Reader::single))
    }

    /// One or more, the joiner between them.
    fn joined(&mut self, joiner: &str, operand: impl Fn(&mut Self) -> Read<()>) -> Read<()> {
        operand(self)?;
        while let Some(at) = self.is_sign(joiner) {
            operand(self)?;
            self.node(at);
        }
        Ok(())
    }

    /// What stands in round brackets, the first of which was taken.
    fn bracketed(
        &mut self,
        open: usize,
        joiners: &str,
        inner: impl Fn(&mut Self) -> Read<()>,
    ) -> Read<()> {
        if self.depth == DEPTH {
            return self.stops(Wants::Unknown);
        }
        self.depth += 1;
        inner(self)?;
        self.depth -= 1;
        self.sign(")", &format!("')' for the '(' in column {}, or {joiners}", open + 1))
    }

    fn piece(&mut self) -> Read<()> {
        if let Some(open) = self.is_sign("(") {
            self.bracketed(open, "'^', '&' or '|'", Reader::formula)?;
            if let Some(star) = self.is_sign("*") {
                self.node(star);
            }
            return Ok(());
        }
        for (open, close) in [("<", ">"), ("[", "]"), ("[[", "]]"), ("{{", "}}")] {
            if let Some(at) = self.is_sign(open) {
                self.proposition()?;
                let column = at + 1;
                let wanted = format!("'{close}' for the '{open}' in column {column}, '&' or '|'");
                self.sign(close, &wanted)?;
                self.node(at);
                return Ok(());
            }
        }
        self.rest();
        let at = self.at;
        if self.word("slen") {
            self.compared()?;
        } else if let Some(word) = ["scount", "sdur"].into_iter().find(|word| self.word(word)) {
            let open = self.open(word)?;
            self.bracketed(open, "'&' or '|'", Reader::proposition)?;
            self.compared()?;
        } else if self.word("draw") {
            self.drawn()?;
        } else if self.word("at") {
            self.open("at")?;
            self.name()?;
            self.sign(")", "')' after the name")?;
        } else if self.word("gap") {
            self.gap()?;
        } else {
            return self.stops(Wants::Piece);
        }
        self.node(at);
        Ok(())
    }

    /// The bracket after a word, and its place.
    fn open(&mut self, word: &str) -> Read<usize> {
        match self.is_sign("(") {
            Some(at) => Ok(at),
            None => self.wants(&format!("'(' after {word}")),
        }
    }

    /// A comparison and its number.
    fn compared(&mut self) -> Read<()> {
        if !["<", "<=", "=", ">=", ">"].into_iter().any(|compare| self.is_sign(compare).is_some()) {
            return self.wants("a comparison ('<', '<=', '=', '>=' or '>')");
        }
        if digits(self.rest()).is_empty() {
            return self.stops(Wants::Number);
        }
        self.number("")?;
        Ok(())
    }

    fn drawn(&mut self) -> Read<()> {
        self.open("draw")?;
        let (at, symbol) = self.number("the number of a symbol, 0 to 7")?;
        self.says(at, Said::Symbol(symbol));
        self.sign(",", "',' and a signal after the symbol")?;
        self.signal()?;
        self.sign(")", "')' after the signal")
    }

    fn gap(&mut self) -> Read<()> {
        self.open("gap")?;
        self.name()?;
        self.sign(",", "',' and the second name of the gap")?;
        self.name()?;
        self.sign(",", "',' and the two numbers of the gap")?;
        let (at, least) = self.number("the first number of the gap")?;
        self.sign(",", "',' and the second number of the gap")?;
        let (_, most) = self.number("the second number of the gap")?;
        self.says(at, Said::Gap(least, most));
        self.sign(")", "')' after the numbers of the gap")
    }

    fn single(&mut self) -> Read<()> {
        let mut nots = vec![];
        while let Some(at) = self.is_sign("!") {
            nots.push(at);
        }
        let first = self.rest().first().copied();
        let at = self.at;
        if let Some(open) = self.is_sign("(") {
            self.bracketed(open, "'&' or '|'", Reader::proposition)?;
        } else if self.word("true") || self.word("false") {
            self.node(at);
        } else if first == Some(b's') {
            self.signal()?;
            self.node(at);
        } else if first == Some(b'u') {
            self.name()?;
            self.node(at);
        } else {
            return self.wants("a signal, a name, true, false, '!' or '('");
        }
        nots.into_iter().rev().for_each(|at| self.node(at));
        Ok(())
    }
}
