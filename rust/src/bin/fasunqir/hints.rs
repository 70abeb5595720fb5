//! Small words for the commonest typing mistakes. Each is tried: it is told only where the line, typed as
//! it suggests, goes on past the place.

use crate::grammar::{is_blank, single_end, Stop, Wants};

/// A place of a line, and a sentence about it.
#[derive(Clone, Debug, PartialEq, Eq)]
pub struct Hint {
    pub at: usize,
    pub why: String,
}

/// How far a line is read: the bytes that are left where it stops, or none where it doesn't.
pub type Left<'r> = &'r dyn Fn(&[u8]) -> Option<usize>;

/// What a line with a mistake at a place may have meant, if it is one of the common ones.
pub fn hint(line: &[u8], stop: &Stop, left: Left) -> Option<Hint> {
    if let Wants::Wrong(_) | Wants::Unknown = stop.wants {
        return None;
    }
    let tried = Tried { line, at: stop.at, wants: &stop.wants, left };
    tried
        .quote_mark()
        .or_else(|| tried.character())
        .or_else(|| tried.signs())
        .or_else(|| tried.listed_with_commas())
        .or_else(|| tried.words())
        .or_else(|| tried.bare())
        .or_else(|| tried.no_part_of_a_sheet())
}

/// A character that stands for a blank, or for none, where mail programs put it.
pub fn is_odd_blank(c: char) -> bool {
    matches!(c, '\u{a0}' | '\u{2000}'..='\u{200a}' | '\u{202f}' | '\u{205f}' | '\u{3000}')
}

pub fn is_invisible(c: char) -> bool {
    matches!(c, '\u{ad}' | '\u{200b}'..='\u{200d}' | '\u{2060}' | '\u{feff}')
}

pub fn is_dash(c: char) -> bool {
    matches!(c, '\u{2010}'..='\u{2015}' | '\u{2212}')
}

/// How a sign that isn't plain is typed.
fn plainly(c: char) -> Option<String> {
    let plain = match c {
        '≥' | '⩾' => ">=",
        '≤' | '⩽' => "<=",
        '⟨' | '〈' | '‹' => "<",
        '⟩' | '〉' | '›' => ">",
        '⟦' => "[[",
        '⟧' => "]]",
        '∧' => "&",
        '∨' => "|",
        '¬' | '~' => "!",
        '⌢' | '⌒' | 'ˆ' => "^",
        // the wide forms of plain characters
        '\u{ff01}'..='\u{ff5e}' => {
            return char::from_u32(c as u32 - 0xfee0).map(String::from);
        }
        _ => return None,
    };
    Some(plain.to_string())
}

/// Words that people type, and how they are typed here.
const SYNONYMS: [(&str, &str); 13] = [
    ("and", "&"),
    ("or", "|"),
    ("not", "!"),
    ("chop", "^"),
    ("len", "slen"),
    ("length", "slen"),
    ("count", "scount"),
    ("dur", "sdur"),
    ("duration", "sdur"),
    ("assumes", "assume"),
    ("assuming", "assume"),
    ("requires", "require"),
    ("prefix", "pref"),
];

const WORDS: [&str; 16] = [
    "assume", "require", "pref", "init", "anti", "implies", "follows", "triggers", "slen",
    "scount", "sdur", "draw", "at", "gap", "true", "false",
];

struct Tried<'t> {
    line: &'t [u8],
    at: usize,
    wants: &'t Wants,
    left: Left<'t>,
}

impl Tried<'_> {
    fn rest(&self) -> &[u8] {
        &self.line[self.at..]
    }

    /// The character at the place.
    fn here(&self) -> Option<char> {
        let few = &self.rest()[..self.rest().len().min(4)];
        few.utf8_chunks().next()?.valid().chars().next()
    }

    /// Where the last byte before the place stands that is no blank.
    fn before(&self) -> Option<usize> {
        self.line[..self.at].iter().rposition(|byte| !is_blank(byte))
    }

    /// Whether the line goes on past a span where something else is typed for it.
    fn goes_on(&self, from: usize, to: usize, typed: &str) -> bool {
        let line = [&self.line[..from], typed.as_bytes(), &self.line[to..]].concat();
        let least = self.line.len() - to + usize::from(!typed.is_empty());
        (self.left)(&line).is_none_or(|left| left < least)
    }

    /// The hint, where the line goes on with something else typed for a span.
    fn try_typed(&self, from: usize, to: usize, typed: &str, why: String) -> Option<Hint> {
        self.goes_on(from, to, typed).then_some(Hint { at: from, why })
    }

    /// The mark that mail programs put before lines that they quote.
    fn quote_mark(&self) -> Option<Hint> {
        let first = self.line.iter().position(|byte| !is_blank(byte))?;
        if self.line[first] != b'>' || self.at != first {
            return None;
        }
        let marks = |byte: &u8| is_blank(byte) || *byte == b'>';
        let end = self.line.iter().position(|byte| !marks(byte)).unwrap_or(self.line.len());
        let why =
            "a quote mark of a mail stands before the line; --tidy takes it away where every \
                   line has one";
        self.try_typed(first, end, "", why.to_string())
    }

    /// A character that isn't plain and stands for one that is.
    fn character(&self) -> Option<Hint> {
        let c = self.here()?;
        let (from, to, code) = (self.at, self.at + c.len_utf8(), c as u32);
        if is_odd_blank(c) {
            let why = format!("a no-break blank (U+{code:04X}) stands here; --tidy makes it plain");
            return Some(Hint { at: from, why });
        }
        if is_invisible(c) {
            let why =
                format!("an invisible character (U+{code:04X}) stands here; --tidy takes it out");
            return Some(Hint { at: from, why });
        }
        let plain = plainly(c)?;
        let tidy = if let '≥' | '≤' = c { "; --tidy mends it" } else { "" };
        self.try_typed(from, to, &plain, format!("'{c}' is typed '{plain}'{tidy}"))
    }

    /// Signs that are doubled, turned round, or pulled apart.
    fn signs(&self) -> Option<Hint> {
        let before = self.before()?;
        let (first, second) = (self.line[before] as char, *self.rest().first()? as char);
        let together = before + 1 == self.at;
        let (pair, end) = (format!("{first}{second}"), self.at + 1);
        let typed = |plain: &str| {
            self.try_typed(before, end, plain, format!("'{pair}' is typed '{plain}'"))
        };
        match pair.as_str() {
            "==" | "&&" | "||" | "^^" | "::" | ",," if together => typed(&pair[1..]),
            "=>" if together => typed(">="),
            "=<" if together => typed("<="),
            "<>" if together && *self.wants == Wants::Number => self.unequal(before),
            "<=" | ">=" | "[[" | "]]" | "{{" | "}}" if !together => {
                let why = format!("'{pair}' is one sign, with no blank inside");
                self.try_typed(before, end, &pair, why)
            }
            _ => None,
        }
        .or_else(|| self.signs_here())
    }

    /// Signs that the grammar hasn't, or only with another beside them.
    fn signs_here(&self) -> Option<Hint> {
        let (at, rest) = (self.at, self.rest());
        let says = |why: &str| Some(Hint { at, why: why.to_string() });
        match rest {
            [b'!', b'=', ..] => self.unequal(at),
            [b'=' | b'-', b'>', ..] => {
                says("there is no arrow: 'if this, then that' is the type of clause implies")
            }
            [b'*', ..] => says("a star stands only after the ')' of a formula, and once"),
            [b'{', ..] if !rest.starts_with(b"{{") => {
                self.try_typed(at, at + 1, "{{", "'{' stands only in pairs: '{{'".to_string())
            }
            [b'}', ..] if !rest.starts_with(b"}}") => {
                self.try_typed(at, at + 1, "}}", "'}' stands only in pairs: '}}'".to_string())
            }
            _ => None,
        }
    }

    fn unequal(&self, at: usize) -> Option<Hint> {
        Some(Hint { at, why: "there is no sign for unequal, only '<' and '>'".to_string() })
    }

    /// Names after a colon with commas between them; where another part may come, the second name is
    /// read as one.
    fn listed_with_commas(&self) -> Option<Hint> {
        let is_name = |at: usize| {
            let name = self.line[at..].iter().find(|byte| !is_blank(byte));
            name == Some(&b'u')
        };
        let comma = match self.rest().first()? {
            b',' if is_name(self.at + 1) => self.at,
            b'u' if *self.wants == Wants::Piece => self.before()?,
            _ => return None,
        };
        if self.line[comma] != b',' {
            return None;
        }
        let why = "the names of a part have no comma between them";
        self.try_typed(comma, comma + 1, " ", why.to_string())
    }

    /// A word in capitals, with another spelling, or in the place of a sign.
    fn words(&self) -> Option<Hint> {
        let lettered = |byte: &u8| byte.is_ascii_alphanumeric();
        let start =
            self.line[..self.at].iter().rposition(|byte| !lettered(byte)).map_or(0, |at| at + 1);
        let end = self.rest().iter().position(|byte| !lettered(byte));
        let end = end.map_or(self.line.len(), |end| self.at + end);
        if end == self.at || end - start > 20 {
            return None;
        }
        // the word from where it stops, and the word that this is the end of
        [self.at, start].into_iter().find_map(|from| self.word(from, end))
    }

    fn word(&self, from: usize, end: usize) -> Option<Hint> {
        let word = std::str::from_utf8(&self.line[from..end]).ok()?;
        let small = word.to_ascii_lowercase();
        if *self.wants == Wants::Role && matches!(small.as_str(), "advice" | "advise") {
            let why = "a clause is typed with 'require', and made advice by --advice";
            return Some(Hint { at: from, why: why.to_string() });
        }
        if let Some((_, typed)) = SYNONYMS.into_iter().find(|(synonym, _)| *synonym == small) {
            return self.try_typed(from, end, typed, format!("'{word}' is typed '{typed}'"));
        }
        if small != word {
            let why = format!("'{word}' is typed in small letters: '{small}'");
            return self.try_typed(from, end, &small, why);
        }
        WORDS.into_iter().filter(|known| alike(word, known)).find_map(|known| {
            self.try_typed(
                from,
                end,
                known,
                format!("'{word}' is no word of a sheet; '{known}' is"),
            )
        })
    }

    /// A proposition by itself where a piece of a formula is needed.
    fn bare(&self) -> Option<Hint> {
        if *self.wants != Wants::Piece {
            return None;
        }
        let at = self.at;
        let Some(end) = single_end(self.line, at) else {
            let why = "'!' stands only inside a piece, as in '<!s0>'; a formula has no 'not'";
            return (self.rest().first() == Some(&b'!')).then(|| Hint { at, why: why.to_string() });
        };
        let said = std::str::from_utf8(&self.line[at..end]).ok()?;
        let first = format!("<{said}>");
        let shown = if said.len() > 20 { "a" } else { said };
        let why = format!(
            "by itself '{shown}' is no piece of a formula: '<{shown}>' is it in the first minute, \
             '[[{shown}]]' in every minute"
        );
        self.try_typed(at, end, &first, why)
    }

    /// What stands in no sheet.
    fn no_part_of_a_sheet(&self) -> Option<Hint> {
        let c = self.here()?;
        let why = match c {
            '#' => "a sheet has no comments",
            '/' if self.rest().starts_with(b"//") => "a sheet has no comments",
            '"' | '\'' | '`' | '´' | '\u{2018}'..='\u{201f}' | '«' | '»' => {
                "a sheet has no quotes"
            }
            '-' => "a sheet has no dash or minus",
            c if is_dash(c) => "a sheet has no dash or minus",
            '…' => "nothing can be left out with dots",
            '\r' => "a carriage return stands here; --tidy makes a line end of it",
            _ => return None,
        };
        Some(Hint { at: self.at, why: why.to_string() })
    }
}

/// Whether a word may be another, mistyped: a letter or two of a long one, a letter of a short one.
fn alike(word: &str, known: &str) -> bool {
    let most = if known.len() > 4 { 2 } else { 1 };
    word.len() > 2 && word.len().abs_diff(known.len()) <= most && changes(word, known) <= most
}

/// Letters to be put in, taken out or changed, at least, to make one word of the other.
fn changes(one: &str, other: &str) -> usize {
    let mut row: Vec<usize> = (0..=other.len()).collect();
    for (i, a) in one.bytes().enumerate() {
        let mut corner = std::mem::replace(&mut row[0], i + 1);
        for (j, b) in other.bytes().enumerate() {
            let changed = corner + usize::from(a != b);
            corner = row[j + 1];
            row[j + 1] = changed.min(corner + 1).min(row[j] + 1);
        }
    }
    row[other.len()]
}
