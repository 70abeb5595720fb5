//! A sheet as it is typed.

use crate::notation::{self, flat, Writer, TYPED};
use crate::sheet::{Clause, Node, Part, Role, Sheet};
use std::fmt;

/// Bytes of a text that is typed out, at most. A sheet that shares its nodes may need any number.
const MOST: usize = 65_536;

impl Sheet {
    /// The sheet as it is typed, all lines ended; none where that has more than 65,536 bytes, as it
    /// may where nodes are shared, which no text can say: they are typed again each time.
    ///
    /// The text of a sheet that was read from a text is read to the same bytes. Of any other it has
    /// the meaning, but for two things. Advice has no word in a text and is typed with `require`. And
    /// the text may have more nodes or brackets than [`read_text`](crate::bytes::read_text) takes.
    ///
    /// ```
    /// use fasunqir::Sheet;
    ///
    /// let sheet: Sheet = "03 0\nrequire implies((<s0>)&slen=5:,scount(s1)>=1:)\n".parse().unwrap();
    /// let text = sheet.text().unwrap();
    /// assert_eq!(text, "3 0\nrequire implies(<s0> & slen = 5:, scount(s1) >= 1:)\n");
    /// assert_eq!(text.parse(), Ok(sheet));
    /// ```
    pub fn text(&self) -> Option<String> {
        let nodes = self.nodes();
        let mut text = first_line(self);
        for clause in &self.clauses() {
            text += &typed_out(&nodes, clause)?;
            text.push('\n');
            if text.len() > MOST {
                return None;
            }
        }
        Some(text)
    }

    /// A clause as it is typed, without its line end. One that typed out alone has more than 65,536
    /// bytes is written with the names that the sheet, printed, has for what is shared.
    ///
    /// ```
    /// let sheet: fasunqir::Sheet = "1 1\nassume\tanti(at(u0) ^ {{s0}}:u0)\n".parse().unwrap();
    /// assert_eq!(sheet.clause_line(0), "assume anti(at(u0) ^ {{s0}}: u0)");
    /// ```
    ///
    /// # Panics
    ///
    /// Where the sheet has no such clause.
    pub fn clause_line(&self, clause: usize) -> String {
        let (nodes, clauses) = (self.nodes(), self.clauses());
        let line = typed_out(&nodes, &clauses[clause]).filter(|line| line.len() <= MOST);
        line.unwrap_or_else(|| {
            let names = notation::shared_names(&nodes, &roots(&clauses));
            line_of(&Writer { nodes: &nodes, names: &names, signs: &TYPED }, &clauses[clause])
        })
    }

    /// How many nodes its clauses have when they are typed out, those that are shared counted each
    /// time. A text is read to a sheet only where they are 64 at most.
    ///
    /// ```
    /// let sheet: fasunqir::Sheet = "1 0\nrequire anti(<s0>:)\n".parse().unwrap();
    /// assert_eq!(sheet.typed_nodes(), 2);
    /// ```
    pub fn typed_nodes(&self) -> usize {
        let sizes = notation::sizes(&self.nodes());
        roots(&self.clauses()).iter().fold(0, |sum: usize, &root| sum.saturating_add(sizes[root]))
    }

    /// How many nodes no clause reaches. They have no part in what the sheet says or in its text.
    ///
    /// ```
    /// let sheet: fasunqir::Sheet = "1 0\nrequire anti(<s0>:)\n".parse().unwrap();
    /// assert_eq!(sheet.unreached(), 0);
    /// ```
    pub fn unreached(&self) -> usize {
        let uses = notation::uses(&self.nodes(), &roots(&self.clauses()));
        uses.into_iter().filter(|&uses| uses == 0).count()
    }
}

impl fmt::Display for Sheet {
    /// The text; where that is too long, a form for people, in which lines `let f1 = …` name what is
    /// used more than once. It is no typed sheet.
    fn fmt(&self, out: &mut fmt::Formatter<'_>) -> fmt::Result {
        if let Some(text) = self.text() {
            return out.write_str(&text);
        }
        let (nodes, clauses) = (self.nodes(), self.clauses());
        let names = notation::shared_names(&nodes, &roots(&clauses));
        let writer = Writer { nodes: &nodes, names: &names, signs: &TYPED };
        write!(out, "{}{}", first_line(self), notation::definitions(&writer))?;
        clauses.iter().try_for_each(|clause| writeln!(out, "{}", line_of(&writer, clause)))
    }
}

fn first_line(sheet: &Sheet) -> String {
    format!("{} {}\n", sheet.signals(), sheet.names())
}

/// The nodes that the parts of clauses are.
fn roots(clauses: &[Clause]) -> Vec<usize> {
    clauses.iter().flat_map(|clause| clause.parts.iter().map(|part| part.root)).collect()
}

/// A clause's line without names for what is shared. Each node is a byte at least, so where there are
/// more nodes than bytes it is not begun.
fn typed_out(nodes: &[Node], clause: &Clause) -> Option<String> {
    let sizes = notation::sizes(nodes);
    let size = clause.parts.iter().fold(0, |sum: usize, part| sum.saturating_add(sizes[part.root]));
    (size <= MOST).then(|| line_of(&Writer { nodes, names: &[], signs: &TYPED }, clause))
}

fn line_of(writer: &Writer, clause: &Clause) -> String {
    let word = match clause.role {
        Role::Assumption => "assume",
        Role::Commitment | Role::Advice => "require",
    };
    let part = |part: &Part| {
        let names: String =
            (0..3).filter(|u| part.names >> u & 1 == 1).map(|u| format!(" u{u}")).collect();
        format!("{}:{names}", flat(&writer.named_pieces(part.root)))
    };
    let parts: Vec<String> = clause.parts.iter().map(part).collect();
    format!("{word} {}({})", clause.kind.word(), parts.join(", "))
}
