//! A reader of the plain notation of formulas, written from docs/FORMAT.md alone, and trees by which
//! what it read is compared with nodes.

use std::collections::HashMap;

/// Trees with a number each: equal trees have equal numbers, so that those which share much can be
/// compared.
#[derive(Default)]
pub struct Trees {
    numbers: HashMap<[usize; 4], usize>,
}

impl Trees {
    /// The tree with this op, q, a and b, where operands are numbers of trees.
    pub fn number(&mut self, tree: [usize; 4]) -> usize {
        let next = self.numbers.len();
        *self.numbers.entry(tree).or_insert(next)
    }

    /// The tree of the last of these nodes.
    pub fn of_nodes(&mut self, nodes: &[fasunqir::Node]) -> usize {
        let mut trees: Vec<usize> = vec![];
        for node in nodes {
            let (a, b) = (usize::from(node.a), usize::from(node.b));
            let (a, b) = match node.op {
                5 | 16..=19 | 23 | 25 | 26 | 30 | 31 => (trees[a], b),
                6 | 7 | 20..=22 => (trees[a], trees[b]),
                _ => (a, b),
            };
            trees.push(self.number([node.op.into(), node.q.into(), a, b]));
        }
        *trees.last().unwrap()
    }
}

/// What was read: the tree of the last line, and how often each name of a `let` is used.
pub struct Read {
    pub tree: usize,
    pub uses: Vec<(String, usize)>,
}

/// Reads a notation in plain letters.
pub fn read(text: &str, trees: &mut Trees) -> Result<Read, String> {
    let mut names: HashMap<String, (usize, usize)> = HashMap::new();
    let mut order = vec![];
    let lines = whole_lines(text);
    for (k, line) in lines.iter().enumerate() {
        let last = k + 1 == lines.len();
        let mut reader = Reader { words: words(line)?, at: 0, names: &mut names, trees };
        let defined = if reader.take("let") {
            let name = reader.next()?;
            reader.need("=")?;
            Some(name)
        } else {
            None
        };
        let tree = match &defined {
            Some(name) if name.starts_with('p') => reader.proposition()?,
            _ => reader.formula()?,
        };
        if reader.at < reader.words.len() {
            return Err(format!("'{}' is left over in '{line}'", reader.words[reader.at]));
        }
        match defined {
            Some(name) if !last => {
                order.push(name.clone());
                if names.insert(name.clone(), (tree, 0)).is_some() {
                    return Err(format!("{name} twice"));
                }
            }
            None if last => {
                let uses = order.into_iter().map(|name| (name.clone(), names[&name].1)).collect();
                return Ok(Read { tree, uses });
            }
            _ => return Err("only the last line is no 'let'".to_string()),
        }
    }
    Err("no line".to_string())
}

/// Lines with those that go on from them, which are indented.
fn whole_lines(text: &str) -> Vec<String> {
    let mut lines: Vec<String> = vec![];
    for line in text.lines() {
        match lines.last_mut() {
            Some(whole) if line.starts_with(' ') => *whole += line,
            _ => lines.push(line.to_string()),
        }
    }
    lines
}

fn words(line: &str) -> Result<Vec<String>, String> {
    let mut words = vec![];
    let mut rest = line.trim_start();
    while !rest.is_empty() {
        let signs = ["[[", "]]", "{{", "}}", "<=", ">="];
        let length = match rest.find(|c: char| !c.is_ascii_alphanumeric()).unwrap_or(rest.len()) {
            0 if signs.iter().any(|sign| rest.starts_with(sign)) => 2,
            0 if rest.starts_with(|c: char| "[]<>=()*^&|!.".contains(c)) => 1,
            0 => return Err(format!("no sign: '{rest}'")),
            length => length,
        };
        let (word, after) = rest.split_at(length);
        words.push(word.to_string());
        rest = after.trim_start();
    }
    Ok(words)
}

struct Reader<'r> {
    words: Vec<String>,
    at: usize,
    names: &'r mut HashMap<String, (usize, usize)>,
    trees: &'r mut Trees,
}

impl Reader<'_> {
    fn next(&mut self) -> Result<String, String> {
        self.at += 1;
        self.words.get(self.at - 1).cloned().ok_or("it ends too early".to_string())
    }

    fn take(&mut self, word: &str) -> bool {
        let there = self.words.get(self.at).is_some_and(|next| next == word);
        self.at += usize::from(there);
        there
    }

    fn need(&mut self, word: &str) -> Result<(), String> {
        let next = self.next()?;
        if next == word {
            Ok(())
        } else {
            Err(format!("'{next}' where '{word}' should be"))
        }
    }

    /// Sides joined by one sign, from the left.
    fn joined(
        &mut self,
        sign: &str,
        op: usize,
        side: fn(&mut Self) -> Result<usize, String>,
    ) -> Result<usize, String> {
        let mut tree = side(self)?;
        while self.take(sign) {
            let right = side(self)?;
            tree = self.trees.number([op, 0, tree, right]);
        }
        Ok(tree)
    }

    fn formula(&mut self) -> Result<usize, String> {
        self.joined("|", 22, |r| r.joined("&", 21, |r| r.joined("^", 20, Self::piece)))
    }

    fn proposition(&mut self) -> Result<usize, String> {
        self.joined("|", 7, |r| r.joined("&", 6, Self::single))
    }

    fn named(&mut self, name: &str) -> Result<usize, String> {
        let (tree, uses) = self.names.get_mut(name).ok_or(format!("no '{name}' so far"))?;
        *uses += 1;
        Ok(*tree)
    }

    fn compared(&mut self) -> Result<(usize, usize), String> {
        let sign = self.next()?;
        let signs = ["<", "<=", "=", ">=", ">"];
        let q = signs.iter().position(|&s| s == sign).ok_or(format!("no comparison: {sign}"))?;
        Ok((q, number(&self.next()?)?))
    }

    fn piece(&mut self) -> Result<usize, String> {
        let word = self.next()?;
        match word.as_str() {
            "!" => {
                let f = self.piece()?;
                Ok(self.trees.number([30, 0, f, 0]))
            }
            "ex" => {
                let name = self.next()?;
                let u = number(name.strip_prefix('u').ok_or(format!("no name: {name}"))?)?;
                self.need(".")?;
                self.need("(")?;
                let f = self.formula()?;
                self.need(")")?;
                Ok(self.trees.number([31, 0, f, u]))
            }
            "(" => {
                let f = self.formula()?;
                self.need(")")?;
                Ok(if self.take("*") { self.trees.number([23, 0, f, 0]) } else { f })
            }
            "<" | "[" | "[[" | "{{" => {
                let signs = [("<", ">"), ("[", "]"), ("[[", "]]"), ("{{", "}}")];
                let k = signs.iter().position(|(open, _)| *open == word).unwrap();
                let p = self.proposition()?;
                self.need(signs[k].1)?;
                Ok(self.trees.number([16 + k, 0, p, 0]))
            }
            "slen" => {
                let (q, b) = self.compared()?;
                Ok(self.trees.number([24, q, 0, b]))
            }
            "scount" | "sdur" => {
                let p = self.single()?;
                let (q, b) = self.compared()?;
                Ok(self.trees.number([if word == "scount" { 25 } else { 26 }, q, p, b]))
            }
            name if name.starts_with('f') => self.named(name),
            other => Err(format!("no piece begins with '{other}'")),
        }
    }

    fn single(&mut self) -> Result<usize, String> {
        let word = self.next()?;
        match word.as_str() {
            "!" => {
                let p = self.single()?;
                Ok(self.trees.number([5, 0, p, 0]))
            }
            "(" => {
                let p = self.proposition()?;
                self.need(")")?;
                Ok(p)
            }
            "false" => Ok(self.trees.number([1, 0, 0, 0])),
            "true" => Ok(self.trees.number([2, 0, 0, 0])),
            name if name.starts_with('p') => self.named(name),
            _ => match (word.strip_prefix('s'), word.strip_prefix('u')) {
                (Some(k), _) => Ok(self.trees.number([3, 0, number(k)?, 0])),
                (_, Some(u)) => Ok(self.trees.number([4, 0, number(u)?, 0])),
                _ => Err(format!("no proposition begins with '{word}'")),
            },
        }
    }
}

fn number(word: &str) -> Result<usize, String> {
    word.parse().map_err(|_| format!("no number: {word}"))
}
