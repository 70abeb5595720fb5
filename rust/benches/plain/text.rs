//! A plain reader of typed sheets without proofs: recursive descent over the bytes, a function for
//! each thing of the grammar. It gives the library's answers.

/// Writes the sheet of a text into the lent bytes and gives its length, or the refusal's number.
pub fn read_text(text: &[u8], out: &mut [u8]) -> Result<usize, u8> {
    let (mut open, mut most) = (0usize, 0);
    for &byte in text {
        match byte {
            b'(' => open += 1,
            b')' => open = open.saturating_sub(1),
            _ => (),
        }
        most = most.max(open);
    }
    if most > 32 {
        return Err(18);
    }
    let mut reader = Reader::new(text);
    reader.lines().ok_or(19)?;
    reader.refused()?;
    if out.len() < 8192 {
        return Err(14);
    }
    Ok(reader.write(out))
}

const COMPARISONS: [&[u8]; 5] = [b"<", b"<=", b"=", b">=", b">"];

const TYPES: [(&[u8], usize); 6] =
    [(b"pref", 1), (b"init", 2), (b"anti", 1), (b"implies", 2), (b"follows", 3), (b"triggers", 3)];

/// Nodes and clauses are counted past the limits and kept up to them.
struct Reader<'t> {
    text: &'t [u8],
    at: usize,
    signals: usize,
    names: usize,
    nodes: usize,
    clauses: usize,
    kept: [[u8; 6]; 64],
    /// The names that each node reaches.
    reach: [u8; 64],
    kept_clauses: [[u8; 11]; 8],
    /// Whether a node breaks rule 6, and a part rule 9.
    six: bool,
    nine: bool,
}

impl<'t> Reader<'t> {
    fn new(text: &'t [u8]) -> Self {
        Reader {
            text,
            at: 0,
            signals: 0,
            names: 0,
            nodes: 0,
            clauses: 0,
            kept: [[0; 6]; 64],
            reach: [0; 64],
            kept_clauses: [[0; 11]; 8],
            six: false,
            nine: false,
        }
    }

    // Bytes, words, numbers. What gives an option gives none where the text is outside the grammar.

    fn byte(&self, at: usize) -> u8 {
        self.text.get(at).copied().unwrap_or(0)
    }

    fn blanks(&mut self) {
        while matches!(self.byte(self.at), b' ' | b'\t') {
            self.at += 1;
        }
    }

    /// Whether a word comes next; it is then passed.
    fn word(&mut self, word: &[u8]) -> bool {
        self.blanks();
        let comes = self.text[self.at..].starts_with(word);
        if comes {
            self.at += word.len();
        }
        comes
    }

    /// The same for a sign, which is no part of a longer one.
    fn sign(&mut self, sign: &[u8]) -> bool {
        self.blanks();
        let next = self.byte(self.at + sign.len());
        let longer = match sign {
            b"[" | b"]" => next == sign[0],
            b"<" | b">" => next == b'=',
            _ => false,
        };
        !longer && self.word(sign)
    }

    fn need(&mut self, sign: &[u8]) -> Option<()> {
        self.sign(sign).then_some(())
    }

    fn number(&mut self) -> Option<usize> {
        self.blanks();
        let (from, mut value) = (self.at, 0);
        while self.byte(self.at).is_ascii_digit() {
            value = (value * 10 + (self.byte(self.at) - b'0') as usize).min(65_536);
            self.at += 1;
        }
        (self.at > from && value < 65_536).then_some(value)
    }

    fn signal(&mut self) -> Option<usize> {
        if !self.word(b"s") {
            return None;
        }
        let (first, second) = (self.byte(self.at), self.byte(self.at + 1));
        if first == b'1' && matches!(second, b'0'..=b'5') {
            self.at += 2;
            return Some(10 + (second - b'0') as usize);
        }
        self.at += 1;
        first.is_ascii_digit().then(|| (first - b'0') as usize)
    }

    fn name(&mut self) -> Option<usize> {
        if !self.word(b"u") {
            return None;
        }
        let digit = self.byte(self.at);
        self.at += 1;
        matches!(digit, b'0'..=b'2').then(|| (digit - b'0') as usize)
    }

    // Lines, clauses, parts.

    fn lines(&mut self) -> Option<()> {
        self.signals = self.number()?;
        if !matches!(self.byte(self.at), b' ' | b'\t') {
            return None;
        }
        self.names = self.number()?;
        self.need(b"\n")?;
        while self.at < self.text.len() {
            self.clause()?;
            self.need(b"\n")?;
        }
        Some(())
    }

    fn clause(&mut self) -> Option<()> {
        let role = if self.word(b"assume") {
            0
        } else if self.word(b"require") {
            1
        } else {
            return None;
        };
        let kind = TYPES.iter().position(|(word, _)| self.word(word))?;
        let mut clause = [kind as u8 + 1, role, 0, 0, 0, 0, 0, 0, 0, 0, 0];
        self.need(b"(")?;
        for part in 0..TYPES[kind].1 {
            if part > 0 {
                self.need(b",")?;
            }
            let root = self.formula()?;
            let mask = self.mask()?;
            self.nine |= mask >> self.names.min(3) != 0 || self.reached(root) & !mask != 0;
            (clause[3 + 2 * part], clause[8 + part]) = (root as u8, mask);
        }
        self.need(b")")?;
        if self.clauses < 8 {
            self.kept_clauses[self.clauses] = clause;
        }
        self.clauses += 1;
        Some(())
    }

    /// The colon after a part, and its names.
    fn mask(&mut self) -> Option<u8> {
        self.need(b":")?;
        let mut mask = 0;
        loop {
            self.blanks();
            if self.byte(self.at) != b'u' {
                return Some(mask);
            }
            let name = 1 << self.name()?;
            if mask & name != 0 {
                return None;
            }
            mask |= name;
        }
    }

    // Formulas and propositions; each gives its node.

    fn node(&mut self, op: u8, q: usize, a: usize, b: usize, reach: u8) -> usize {
        if self.nodes < 64 {
            let ([a0, a1], [b0, b1]) = ((a as u16).to_be_bytes(), (b as u16).to_be_bytes());
            self.kept[self.nodes] = [op, q as u8, a0, a1, b0, b1];
            self.reach[self.nodes] = reach;
        }
        self.nodes += 1;
        self.nodes - 1
    }

    fn reached(&self, node: usize) -> u8 {
        self.reach.get(node).copied().unwrap_or(0)
    }

    fn over(&mut self, op: u8, q: usize, a: usize, b: usize) -> usize {
        self.node(op, q, a, b, self.reached(a))
    }

    /// One of the tighter sort, or some of them joined to the left.
    fn joined(
        &mut self,
        op: u8,
        sign: &[u8],
        tighter: impl Fn(&mut Self) -> Option<usize>,
    ) -> Option<usize> {
        let mut left = tighter(self)?;
        while self.sign(sign) {
            let right = tighter(self)?;
            left = self.node(op, 0, left, right, self.reached(left) | self.reached(right));
        }
        Some(left)
    }

    fn formula(&mut self) -> Option<usize> {
        self.joined(22, b"|", Self::conjunction)
    }

    fn conjunction(&mut self) -> Option<usize> {
        self.joined(21, b"&", Self::row)
    }

    fn row(&mut self) -> Option<usize> {
        self.joined(20, b"^", Self::piece)
    }

    fn piece(&mut self) -> Option<usize> {
        self.blanks();
        match (self.byte(self.at), self.byte(self.at + 1)) {
            (b'(', _) => {
                let inner = self.between(b"(", Self::formula, b")")?;
                Some(if self.sign(b"*") { self.over(23, 0, inner, 0) } else { inner })
            }
            (b'[', b'[') => self.around(18, b"[[", b"]]"),
            (b'[', _) => self.around(17, b"[", b"]"),
            (b'<', _) => self.around(16, b"<", b">"),
            (b'{', _) => self.around(19, b"{{", b"}}"),
            (b's', b'l') => {
                self.need(b"slen")?;
                let (q, number) = (self.comparison()?, self.number()?);
                Some(self.node(24, q, 0, number, 0))
            }
            (b's', b'c') => self.counted(25, b"scount"),
            (b's', _) => self.counted(26, b"sdur"),
            (b'd', _) => self.symbol(),
            (b'a', _) => {
                self.need(b"at")?;
                let name = self.between(b"(", Self::name, b")")?;
                self.six |= name >= self.names;
                Some(self.node(28, 0, name, 0, 1 << name))
            }
            (b'g', _) => self.gap(),
            _ => None,
        }
    }

    fn between(
        &mut self,
        open: &[u8],
        inner: impl Fn(&mut Self) -> Option<usize>,
        close: &[u8],
    ) -> Option<usize> {
        self.need(open)?;
        let inner = inner(self)?;
        self.need(close)?;
        Some(inner)
    }

    fn around(&mut self, op: u8, open: &[u8], close: &[u8]) -> Option<usize> {
        let p = self.between(open, Self::proposition, close)?;
        Some(self.over(op, 0, p, 0))
    }

    fn counted(&mut self, op: u8, word: &[u8]) -> Option<usize> {
        self.need(word)?;
        let p = self.between(b"(", Self::proposition, b")")?;
        let (q, number) = (self.comparison()?, self.number()?);
        Some(self.over(op, q, p, number))
    }

    fn comparison(&mut self) -> Option<usize> {
        COMPARISONS.iter().position(|sign| self.sign(sign))
    }

    fn symbol(&mut self) -> Option<usize> {
        self.need(b"draw")?;
        self.need(b"(")?;
        let symbol = self.number()?;
        self.need(b",")?;
        let signal = self.signal()?;
        self.need(b")")?;
        self.six |= symbol > 7 || signal >= self.signals;
        Some(self.node(27, symbol, signal, 0, 0))
    }

    fn gap(&mut self) -> Option<usize> {
        self.need(b"gap")?;
        self.need(b"(")?;
        let from = self.name()?;
        self.need(b",")?;
        let to = self.name()?;
        self.need(b",")?;
        let a = self.number()?;
        self.need(b",")?;
        let b = self.number()?;
        self.need(b")")?;
        self.six |= from.max(to) >= self.names || a > b;
        Some(self.node(29, 16 * from + to, a, b, 1 << from | 1 << to))
    }

    fn proposition(&mut self) -> Option<usize> {
        self.joined(7, b"|", Self::both)
    }

    fn both(&mut self) -> Option<usize> {
        self.joined(6, b"&", Self::single)
    }

    fn single(&mut self) -> Option<usize> {
        let mut nots = 0;
        while self.sign(b"!") {
            nots += 1;
        }
        let mut p = match self.byte(self.at) {
            b'(' => self.between(b"(", Self::proposition, b")")?,
            b's' => {
                let signal = self.signal()?;
                self.six |= signal >= self.signals;
                self.node(3, 0, signal, 0, 0)
            }
            b'u' => {
                let name = self.name()?;
                self.six |= name >= self.names;
                self.node(4, 0, name, 0, 1 << name)
            }
            b't' => {
                self.need(b"true")?;
                self.node(2, 0, 0, 0, 0)
            }
            _ => {
                self.need(b"false")?;
                self.node(1, 0, 0, 0, 0)
            }
        };
        for _ in 0..nots {
            p = self.over(5, 0, p, 0);
        }
        Some(p)
    }

    // What was read.

    fn refused(&self) -> Result<(), u8> {
        if self.nodes > 64 || self.clauses > 8 {
            return Err(20);
        }
        if !(1..=16).contains(&self.signals) || self.names > 3 || self.clauses == 0 {
            return Err(4);
        }
        if self.six {
            return Err(6);
        }
        if self.nine {
            return Err(9);
        }
        Ok(())
    }

    fn write(&self, out: &mut [u8]) -> usize {
        let length = 9 + 6 * self.nodes + 11 * self.clauses;
        out[..2].copy_from_slice(&(length as u16 - 2).to_be_bytes());
        out[2..6].copy_from_slice(&[1, 1, self.signals as u8, self.names as u8]);
        out[6..9].copy_from_slice(&[0, self.nodes as u8, self.clauses as u8]);
        let nodes = 9 + 6 * self.nodes;
        out[9..nodes].copy_from_slice(self.kept[..self.nodes].as_flattened());
        let clauses = self.kept_clauses[..self.clauses].as_flattened();
        out[nodes..length].copy_from_slice(clauses);
        length
    }
}
