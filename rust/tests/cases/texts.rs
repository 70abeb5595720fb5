//! Typed sheets with the bytes or the refusal that they are to have.

use crate::build::Role::*;
use crate::build::{hex_file, Compare, Node, Part, Sheet, Symbol};
use crate::reference::Number;

pub struct TextCase {
    pub text: Vec<u8>,
    pub expected: Result<Vec<u8>, Number>,
}

fn refused(number: Number, text: impl AsRef<[u8]>) -> TextCase {
    TextCase { text: text.as_ref().to_vec(), expected: Err(number) }
}

fn reads(text: impl AsRef<[u8]>, sheet: Sheet) -> TextCase {
    TextCase { text: text.as_ref().to_vec(), expected: Ok(sheet.bytes()) }
}

/// Two signals, three names and one commitment pref, whose formula is typed as here and is stored
/// as these nodes.
fn formula(typed: &str, build: impl FnOnce(&mut Sheet) -> Node) -> TextCase {
    let mut sheet = Sheet::new(2, 3);
    let root = build(&mut sheet);
    sheet.pref(Commitment, Part(root, 0b111));
    reads(in_pref(typed), sheet)
}

/// The same with a proposition, typed between [ and ].
fn proposition(typed: &str, build: impl FnOnce(&mut Sheet) -> Node) -> TextCase {
    formula(&format!("[{typed}]"), |s| {
        let p = build(s);
        s.stretch(p)
    })
}

fn in_pref(formula: &str) -> String {
    format!("2 3\nrequire pref({formula}: u0 u1 u2)\n")
}

/// A sheet of one signal, three names and one node, `slen = 1`.
fn one_node(clause: impl FnOnce(&mut Sheet, Node)) -> Sheet {
    let mut sheet = Sheet::new(1, 3);
    let root = sheet.slen(Compare::Equal, 1);
    clause(&mut sheet, root);
    sheet
}

/// The same under other counts.
fn counted(signals: u8, names: u8) -> Sheet {
    let mut sheet = one_node(|s, d| s.anti(Commitment, Part(d, 0)));
    (sheet.signals, sheet.names) = (signals, names);
    sheet
}

pub fn cases() -> Vec<TextCase> {
    [
        examples(),
        first_lines(),
        lines(),
        clauses(),
        names(),
        joiners(),
        propositions(),
        pieces(),
        numbers(),
        blanks(),
        signs(),
        brackets(),
        limits(),
        later_refusals(),
        order_of_refusals(),
    ]
    .into_iter()
    .flatten()
    .collect()
}

/// The examples, each with the bytes of its hexadecimal twin.
fn examples() -> Vec<TextCase> {
    macro_rules! example {
        ($folder:literal) => {
            TextCase {
                text: include_bytes!(concat!("../../../examples/", $folder, "/sheet.txt")).to_vec(),
                expected: Ok(hex_file(include_str!(concat!(
                    "../../../examples/",
                    $folder,
                    "/sheet.hex"
                )))),
            }
        };
    }
    vec![
        example!("paper"),
        example!("reply"),
        example!("courier"),
        example!("clocks"),
        example!("withdrawn"),
    ]
}

fn first_lines() -> Vec<TextCase> {
    let with = |first: &str| format!("{first}\nrequire anti(slen=1:)\n");
    vec![
        reads(with("1 0"), counted(1, 0)),
        reads(with("16 3"), counted(16, 3)),
        reads(with("1\t0"), counted(1, 0)),
        reads(with("\t 16 \t 2 \t"), counted(16, 2)),
        reads(with("0016 0000000000000000000003"), counted(16, 3)),
        refused(19, with("")),
        refused(19, with("1")),
        refused(19, with("10")),
        refused(19, with("1,0")),
        refused(19, with("1:0")),
        refused(19, with("1 0 0")),
        refused(19, with("1 6 0")),
        refused(19, with("s1 u0")),
        refused(19, with("-1 0")),
        refused(19, with("1 0;")),
        refused(19, with("65536 0")),
        refused(19, with("1 65536")),
        // Numbers that a byte doesn't hold.
        refused(4, with("65535 0")),
        refused(4, with("1 65535")),
        refused(4, with("300 0")),
        refused(4, with("257 0")),
        refused(4, with("256 0")),
        refused(4, with("255 0")),
        refused(4, with("17 0")),
        refused(4, with("0 0")),
        refused(4, with("1 4")),
        refused(4, with("1 256")),
        // No clauses and no nodes.
        refused(4, "1 0\n"),
        refused(4, "0 0\n"),
        refused(4, " 16\t3 \n"),
    ]
}

fn lines() -> Vec<TextCase> {
    let good = "1 0\nrequire anti(slen=1:)\n";
    let two = || {
        let mut sheet = counted(1, 0);
        let root = sheet.slen(Compare::Equal, 1);
        sheet.anti(Assumption, Part(root, 0));
        sheet
    };
    vec![
        reads(good, counted(1, 0)),
        reads(format!("{good}assume anti(slen=1:)\n"), two()),
        refused(19, ""),
        refused(19, "\n"),
        refused(19, " "),
        refused(19, "1 0"),
        refused(19, "1 0\n\n"),
        refused(19, "1 0\n \n"),
        refused(19, "\n1 0\n"),
        refused(19, "1 0\r\n"),
        refused(19, good.trim_end()),
        refused(19, format!("{good}\n")),
        refused(19, format!("\n{good}")),
        refused(19, format!("{good} ")),
        refused(19, format!("{good}\0")),
        refused(19, format!("{good}require anti(slen=1:)")),
        refused(19, format!("{good}\nrequire anti(slen=1:)\n")),
        refused(19, format!("{good}1 0\n")),
        refused(19, good.replace('\n', "\r\n")),
        refused(19, good.replace('\n', "\n\n")),
        refused(19, good.replace('\n', " ")),
        refused(19, "1\n0\nrequire anti(slen=1:)\n"),
        refused(19, "1 0\nrequire\nanti(slen=1:)\n"),
        refused(19, "1 0\nrequire anti(slen=1:\n)\n"),
        refused(19, "1 0\nrequire anti(slen=1:) require anti(slen=1:)\n"),
        refused(19, "1 0 require anti(slen=1:)\n"),
        refused(19, "require anti(slen=1:)\n"),
        refused(19, "require anti(slen=1:)\n1 0\n"),
    ]
}

fn clauses() -> Vec<TextCase> {
    let types = [("pref", 1), ("init", 2), ("anti", 1), ("implies", 2), ("follows", 3)];
    let types = types.into_iter().chain([("triggers", 3)]);
    let mut cases = vec![];
    for (t, (word, parts)) in types.enumerate() {
        for (role, spoken) in ["assume", "require"].into_iter().enumerate() {
            for count in 0..=4 {
                // Part p is slen = p with name p, for p below 3.
                let typed: Vec<String> =
                    (0..count).map(|p| format!("slen={p}:u{}", p.min(2))).collect();
                let text = format!("1 3\n{spoken} {word}({})\n", typed.join(","));
                if count != parts {
                    cases.push(refused(19, text));
                    continue;
                }
                let mut sheet = Sheet::new(1, 3);
                let mut clause = [0; 11];
                (clause[0], clause[1]) = (t as u8 + 1, role as u8);
                for p in 0..count {
                    sheet.slen(Compare::Equal, p as u16);
                    (clause[3 + 2 * p], clause[8 + p]) = (p as u8, 1 << p);
                }
                sheet.clauses.push(clause);
                cases.push(reads(text, sheet));
            }
        }
    }
    let good = "1 0\nrequire anti(slen=1:)\n";
    cases.extend([
        refused(19, good.replace("require", "")),
        refused(19, good.replace("require", "promise")),
        refused(19, good.replace("require", "requires")),
        refused(19, good.replace("require", "Require")),
        refused(19, good.replace("require", "require require")),
        refused(19, good.replace("require", "assume require")),
        refused(19, good.replace("anti", "")),
        refused(19, good.replace("anti", "anti anti")),
        refused(19, good.replace("anti", "never")),
        refused(19, good.replace("(slen=1:)", "")),
        refused(19, good.replace("(slen=1:)", "()")),
        refused(19, good.replace("(slen=1:)", "slen=1:")),
        refused(19, good.replace("(slen=1:)", "[slen=1:]")),
        refused(19, good.replace("(slen=1:)", "((slen=1:))")),
        refused(19, good.replace("(slen=1:)", "(slen=1:)*")),
        refused(19, good.replace("(slen=1:)", "(:)")),
        refused(19, good.replace("(slen=1:)", "(slen=1::)")),
        refused(19, good.replace("(slen=1:)", "(slen=1)")),
        refused(19, good.replace("(slen=1:)", "(slen=1:,)")),
        refused(19, good.replace("(slen=1:)", "(,slen=1:)")),
        refused(19, "1 0\nrequire implies(slen=1: slen=2:)\n"),
        refused(19, "1 0\nrequire implies(slen=1:,,slen=2:)\n"),
        refused(19, "1 0\nrequire implies(slen=1,slen=2:)\n"),
        refused(19, "1 0\nrequire init(slen=1:/slen=2:)\n"),
    ]);
    cases
}

fn names() -> Vec<TextCase> {
    let with = |names: &str| format!("1 3\nrequire anti(slen=1:{names})\n");
    let mask = |mask: u8| one_node(|s, d| s.anti(Commitment, Part(d, mask)));
    vec![
        reads(with(""), mask(0)),
        reads(with(" \t "), mask(0)),
        reads(with("u0"), mask(0b001)),
        reads(with("u2"), mask(0b100)),
        reads(with("u0u1"), mask(0b011)),
        reads(with(" u0 \t u1 "), mask(0b011)),
        reads(with("u2u0"), mask(0b101)),
        reads(with("u2 u1u0"), mask(0b111)),
        refused(19, with("u0u0")),
        refused(19, with("u1 u2 u1")),
        refused(19, with("u0u1u2u0")),
        refused(19, with("u3")),
        refused(19, with("u00")),
        refused(19, with("u01")),
        refused(19, with("u")),
        refused(19, with("u 0")),
        refused(19, with("0")),
        refused(19, with("u0,u1")),
        refused(19, with("u0:u1")),
        refused(19, with("u0|u1")),
        refused(19, with("(u0)")),
        refused(19, with("s0")),
        refused(19, with("true")),
        refused(19, with("U0")),
    ]
}

fn joiners() -> Vec<TextCase> {
    fn slens<const N: usize>(s: &mut Sheet) -> [Node; N] {
        std::array::from_fn(|k| s.slen(Compare::Equal, k as u16))
    }
    let mut cases = vec![];
    for (op, sign) in [(20, '^'), (21, '&'), (22, '|')] {
        cases.push(formula(&format!("slen=0{sign}slen=1"), |s| {
            let [f, g] = slens(s);
            s.node(op, 0, f.0, g.0)
        }));
        // All to the left.
        cases.push(formula(&format!("slen=0{sign}slen=1{sign}slen=2"), |s| {
            let [f, g] = slens(s);
            let left = s.node(op, 0, f.0, g.0);
            let h = s.slen(Compare::Equal, 2);
            s.node(op, 0, left.0, h.0)
        }));
    }
    cases.extend([
        formula("slen=0^(slen=1^slen=2)", |s| {
            let [f, g, h] = slens(s);
            let right = s.chop(g, h);
            s.chop(f, right)
        }),
        // The last binds tightest.
        formula("slen=0|slen=1&slen=2^slen=3", |s| {
            let [f, g, h, i] = slens(s);
            let row = s.chop(h, i);
            let both = s.both(g, row);
            s.either(f, both)
        }),
        formula("slen=0^slen=1&slen=2|slen=3", |s| {
            let [f, g] = slens(s);
            let row = s.chop(f, g);
            let h = s.slen(Compare::Equal, 2);
            let both = s.both(row, h);
            let i = s.slen(Compare::Equal, 3);
            s.either(both, i)
        }),
        formula("(slen=0|slen=1)^(slen=2&slen=3)", |s| {
            let [f, g] = slens(s);
            let left = s.either(f, g);
            let (h, i) = (s.slen(Compare::Equal, 2), s.slen(Compare::Equal, 3));
            let right = s.both(h, i);
            s.chop(left, right)
        }),
        // Brackets and stars.
        formula("((slen=0))", |s| s.slen(Compare::Equal, 0)),
        formula("(slen=0)*", |s| {
            let [f] = slens(s);
            s.star(f)
        }),
        formula("(slen=0) \t *", |s| {
            let [f] = slens(s);
            s.star(f)
        }),
        formula("((slen=0)*)*", |s| {
            let [f] = slens(s);
            let once = s.star(f);
            s.star(once)
        }),
        formula("((slen=0))*", |s| {
            let [f] = slens(s);
            s.star(f)
        }),
        formula("((slen=0)*)", |s| {
            let [f] = slens(s);
            s.star(f)
        }),
        formula("slen=0^(slen=1|slen=2)*", |s| {
            let [f, g, h] = slens(s);
            let either = s.either(g, h);
            let star = s.star(either);
            s.chop(f, star)
        }),
        refused(19, in_pref("(slen=0)**")),
        refused(19, in_pref("(slen=0)* *")),
        refused(19, in_pref("((slen=0)**)")),
        refused(19, in_pref("slen=0*")),
        refused(19, in_pref("<s0>*")),
        refused(19, in_pref("[s0]*")),
        refused(19, in_pref("at(u0)*")),
        refused(19, in_pref("draw(0,s0)*")),
        refused(19, in_pref("*(slen=0)")),
        refused(19, in_pref("slen=0 slen=1")),
        refused(19, in_pref("slen=0||slen=1")),
        refused(19, in_pref("slen=0&&slen=1")),
        refused(19, in_pref("slen=0^^slen=1")),
        refused(19, in_pref("slen=0|")),
        refused(19, in_pref("|slen=0")),
        refused(19, in_pref("slen=0&")),
        refused(19, in_pref("^slen=0")),
        refused(19, in_pref("!slen=0")),
        refused(19, in_pref("!(slen=0)")),
        refused(19, in_pref("(slen=0)(slen=1)")),
        refused(19, in_pref("()")),
        refused(19, in_pref("")),
        refused(19, in_pref("(slen=0")),
        refused(19, in_pref("slen=0)")),
        refused(19, in_pref(")slen=0(")),
        refused(19, in_pref("(slen=0)|)slen=1(")),
    ]);
    cases
}

fn propositions() -> Vec<TextCase> {
    let mut cases = vec![
        proposition("true", Sheet::truth),
        proposition("false", Sheet::falsity),
        proposition("u0", |s| s.name(0)),
        proposition("u2", |s| s.name(2)),
        proposition("((s1))", |s| s.signal(1)),
        proposition("!s0", |s| {
            let p = s.signal(0);
            s.not(p)
        }),
        proposition("! !\t!s0", |s| {
            let p = s.signal(0);
            let once = s.not(p);
            let twice = s.not(once);
            s.not(twice)
        }),
        proposition("!(!(s0))", |s| {
            let p = s.signal(0);
            let once = s.not(p);
            s.not(once)
        }),
        proposition("s0|s1|u0", |s| {
            let (p, q) = (s.signal(0), s.signal(1));
            let left = s.or(p, q);
            let r = s.name(0);
            s.or(left, r)
        }),
        proposition("s0&s1&u0", |s| {
            let (p, q) = (s.signal(0), s.signal(1));
            let left = s.and(p, q);
            let r = s.name(0);
            s.and(left, r)
        }),
        proposition("s0&(s1&u0)", |s| {
            let (p, q, r) = (s.signal(0), s.signal(1), s.name(0));
            let right = s.and(q, r);
            s.and(p, right)
        }),
        proposition("s0|s1&!u0", |s| {
            let (p, q, r) = (s.signal(0), s.signal(1), s.name(0));
            let not = s.not(r);
            let both = s.and(q, not);
            s.or(p, both)
        }),
        proposition("!s0&s1|u0", |s| {
            let p = s.signal(0);
            let not = s.not(p);
            let q = s.signal(1);
            let both = s.and(not, q);
            let r = s.name(0);
            s.or(both, r)
        }),
        proposition("!(s0|s1)&u0", |s| {
            let (p, q) = (s.signal(0), s.signal(1));
            let either = s.or(p, q);
            let not = s.not(either);
            let r = s.name(0);
            s.and(not, r)
        }),
    ];
    // Signals 0–15 and no others.
    for k in 0..16 {
        let mut sheet = Sheet::new(16, 0);
        let p = sheet.signal(k);
        let root = sheet.point(p);
        sheet.pref(Assumption, Part(root, 0));
        cases.push(reads(format!("16 0\nassume pref(<s{k}>:)\n"), sheet));
    }
    #[rustfmt::skip]
    let outside = [
        "", "s", "s16", "s00", "s01", "s015", "s99", "s 0", "S0", "u3", "u00", "u", "u 0", "0",
        "1", "s0^s1", "s0 s1", "s0s1", "s0!", "!", "s0!s1", "s0||s1", "s0&&s1", "|s0", "s0&",
        "(s0", "s0)", "()", "(s0)*", "(s0)(s1)", "truefalse", "true false", "True", "tr ue",
        "truth", "not s0", "<s0>", "slen=1", "s0=1", "!(slen=1)", "(s0)|)s1(", "s0:u0", "s0,s1",
        "\u{ac}s0",
    ];
    for typed in outside {
        cases.push(refused(19, in_pref(&format!("<{typed}>"))));
        cases.push(refused(19, in_pref(&format!("sdur({typed})=1"))));
    }
    cases
}

fn pieces() -> Vec<TextCase> {
    let mut cases = vec![];
    let around = [(16, "<", ">"), (17, "[", "]"), (18, "[[", "]]"), (19, "{{", "}}")];
    for (op, open, close) in around {
        cases.push(formula(&format!("{open}s1{close}"), |s| {
            let p = s.signal(1);
            s.node(op, 0, p.0, 0)
        }));
        cases.push(formula(&format!(" {open} s1 | u0 {close} "), |s| {
            let (p, q) = (s.signal(1), s.name(0));
            let either = s.or(p, q);
            s.node(op, 0, either.0, 0)
        }));
        for (_, other, closing) in around {
            if other != open {
                cases.push(refused(19, in_pref(&format!("{open}s1{closing}"))));
                cases.push(refused(19, in_pref(&format!("{open}{other}s1{closing}{close}"))));
            }
        }
    }
    for (q, sign) in ["<", "<=", "=", ">=", ">"].into_iter().enumerate() {
        let q = q as u8;
        cases.push(formula(&format!("slen{sign}7"), |s| s.node(24, q, 0, 7)));
        cases.push(formula(&format!(" slen {sign} 7 "), |s| s.node(24, q, 0, 7)));
        for (op, word) in [(25, "scount"), (26, "sdur")] {
            cases.push(formula(&format!("{word}(s1){sign}7"), |s| {
                let p = s.signal(1);
                s.node(op, q, p.0, 7)
            }));
            cases.push(formula(&format!("{word} ( (s1) & !u0 ) {sign} 65535"), |s| {
                let (p, u) = (s.signal(1), s.name(0));
                let not = s.not(u);
                let both = s.and(p, not);
                s.node(op, q, both.0, 65_535)
            }));
            cases.push(refused(19, in_pref(&format!("{word} s1 {sign} 7"))));
            cases.push(refused(19, in_pref(&format!("{word}{sign}7"))));
            cases.push(refused(19, in_pref(&format!("{word}<s1>{sign}7"))));
            cases.push(refused(19, in_pref(&format!("{word}(s1){sign}"))));
            cases.push(refused(19, in_pref(&format!("({word}(s1)){sign}7"))));
        }
        cases.push(refused(19, in_pref(&format!("slen{sign}"))));
        cases.push(refused(19, in_pref(&format!("{sign}7"))));
        cases.push(refused(19, in_pref(&format!("7{sign}slen"))));
        cases.push(refused(19, in_pref(&format!("slen{sign}s1"))));
        cases.push(refused(19, in_pref(&format!("slen{sign}(7)"))));
        cases.push(refused(19, in_pref(&format!("slen(s0){sign}7"))));
        cases.push(refused(19, in_pref(&format!("slen{sign}{sign}7"))));
    }
    let symbols = [
        Symbol::Low,
        Symbol::High,
        Symbol::Either,
        Symbol::Unknown,
        Symbol::LowRun,
        Symbol::HighRun,
        Symbol::EitherRun,
        Symbol::SteadyRun,
    ];
    for symbol in symbols {
        let q = symbol as u8;
        cases.push(formula(&format!("draw({q},s1)"), |s| s.symbol(symbol, 1)));
        cases.push(formula(&format!("draw ( 0{q} , s0 )"), |s| s.symbol(symbol, 0)));
    }
    for u in 0..3u8 {
        cases.push(formula(&format!("at(u{u})"), |s| s.mark(u as u16)));
        for v in 0..3 {
            let typed = format!("gap(u{u},u{v},{u},12)");
            cases.push(formula(&typed, |s| s.gap(u, v, u as u16, 12)));
        }
    }
    cases.extend([
        formula(" at ( u1 ) ", |s| s.mark(1)),
        formula("gap ( u2 , u0 , 00 , 65535 )", |s| s.gap(2, 0, 0, 65_535)),
        formula("gap(u0,u0,5,5)", |s| s.gap(0, 0, 5, 5)),
        formula("draw(0,s0)^at(u0)^draw(7,s0)", |s| {
            let (low, mark) = (s.symbol(Symbol::Low, 0), s.mark(0));
            let row = s.chop(low, mark);
            let steady = s.symbol(Symbol::SteadyRun, 0);
            s.chop(row, steady)
        }),
    ]);
    #[rustfmt::skip]
    let outside = [
        "draw", "draw()", "draw(0)", "draw(s0)", "draw(s0,0)", "draw(0 s0)", "draw(0,s0,0)",
        "draw(0,u0)", "draw(0,s16)", "draw(0,0)", "draw(0,(s0))", "draw((0),s0)", "draw(-1,s0)",
        "draw(65536,s0)", "draw[0,s0]", "draw(low,s0)", "at", "at()", "at(s0)", "at(u3)",
        "at(0)", "at((u0))", "at u0", "at(u0,u1)", "at(!u0)", "gap", "gap()", "gap(u0,u1)",
        "gap(u0,u1,0)", "gap(u0,u1,0,1,2)", "gap(0,1,u0,u1)", "gap(u0 u1 0 1)",
        "gap(u0,u1,0,65536)", "gap(u0,u1,65536,65536)", "gap(u0,s1,0,1)", "gap(u0,u3,0,1)",
        "gap(u0,u1,(0),1)", "gap(u0,,0,1)", "gap(u0u1,0,1)", "s0", "u0", "true", "(true)", "1",
        "slen", "len=1", "slen=1=1", "slen==1", "slen=<1", "slen=>1", "slen<>1", "slen!=1",
        "sle n=1", "Slen=1", "<>", "[]", "[[]]", "{{}}", "{s0}", "<<s0>>", "[[[s0]]]",
        "{{{s0}}}", "[<s0>]", "<s0", "s0>", "[s0", "s0]", "<s0>>", "<s0>=1", "<s0>1", "[s0][s1]",
        "[s0]]", "[[s0]", "{{s0}", "(<s0>", "<s0>)", "<(s0>)", "(<s0)>",
    ];
    cases.extend(outside.iter().map(|typed| refused(19, in_pref(typed))));
    cases
}

fn numbers() -> Vec<TextCase> {
    let mut cases = vec![];
    let inside = ["0", "00", "1", "01", "9", "10", "255", "256", "9999", "10000", "65535"];
    for number in inside.into_iter().chain(["065535", "0000000000000000000000000000000000065535"]) {
        let value = number.parse::<u64>().unwrap() as u16;
        cases.push(formula(&format!("slen>{number}"), |s| s.slen(Compare::More, value)));
    }
    #[rustfmt::skip]
    let outside = [
        "65536", "65537", "065536", "70000", "99999", "100000", "131071", "655350", "4294967296",
        "4294967297", "18446744073709551615", "18446744073709551616", "18446744073709551617",
        "340282366920938463463374607431768211456", "6 5", "1 0", "1,0", "1.0", "+1", "-1", "0x1",
        "1e1", "a", "1a", "\u{661}", "",
    ];
    cases.extend(outside.iter().map(|number| refused(19, in_pref(&format!("slen>{number}")))));
    cases
}

fn blanks() -> Vec<TextCase> {
    let spread = " \t1 \t0 \t\n\trequire  anti\t(  slen\t=  1\t:\t)\t\t\n";
    let mut cases = vec![
        reads("1 0\nrequireanti(slen=1:)\n", counted(1, 0)),
        reads(
            "1 3\nrequireanti(slen=1:u0u1)\n",
            one_node(|s, d| s.anti(Commitment, Part(d, 0b011))),
        ),
        reads("1 3\nassumepref(slen=1:)\n", one_node(|s, d| s.pref(Assumption, Part(d, 0)))),
        reads(spread, counted(1, 0)),
    ];
    // No blank inside a word, number or sign.
    let whole = "1 3\nrequire implies(<true>&[false]^[[s0]]|{{u0}}: u0,(slen<=10)*:)\n";
    let mut sheet = Sheet::new(1, 3);
    let p = sheet.truth();
    let at_p = sheet.point(p);
    let q = sheet.falsity();
    let stretch = sheet.stretch(q);
    let r = sheet.signal(0);
    let all = sheet.whole(r);
    let row = sheet.chop(stretch, all);
    let both = sheet.both(at_p, row);
    let u = sheet.name(0);
    let unit = sheet.unit(u);
    let d1 = sheet.either(both, unit);
    let short = sheet.slen(Compare::AtMost, 10);
    let d2 = sheet.star(short);
    sheet.implies(Commitment, Part(d1, 0b001), Part(d2, 0));
    cases.push(reads(whole, sheet));
    #[rustfmt::skip]
    let words = [
        "require", "implies", "true", "false", "[[", "]]", "s0", "{{", "u0", "}}", "slen", "<=",
        "10",
    ];
    for word in words {
        for cut in 1..word.len() {
            for blank in [" ", "\t"] {
                let split = [&word[..cut], blank, &word[cut..]].concat();
                cases.push(refused(19, whole.replacen(word, &split, 1)));
            }
        }
    }
    // Other bytes are no blanks.
    for blank in ["\r", "\u{b}", "\u{c}", "\0", "\u{a0}", "\u{85}"] {
        cases.push(refused(19, format!("1 0\nrequire{blank}anti(slen=1:)\n")));
        cases.push(refused(19, format!("1{blank}0\nrequire anti(slen=1:)\n")));
    }
    cases.push(refused(19, b"1 0\nrequire\xFFanti(slen=1:)\n"));
    cases
}

fn signs() -> Vec<TextCase> {
    vec![
        formula("[[s0]]", |s| {
            let p = s.signal(0);
            s.whole(p)
        }),
        formula("[s0]^[s0]", |s| {
            let p = s.signal(0);
            let f = s.stretch(p);
            let q = s.signal(0);
            let g = s.stretch(q);
            s.chop(f, g)
        }),
        formula("<s0>&slen<1", |s| {
            let p = s.signal(0);
            let f = s.point(p);
            let g = s.slen(Compare::Less, 1);
            s.both(f, g)
        }),
        formula("slen<1&<s0>", |s| {
            let f = s.slen(Compare::Less, 1);
            let p = s.signal(0);
            let g = s.point(p);
            s.both(f, g)
        }),
        refused(19, in_pref("[ [s0] ]")),
        refused(19, in_pref("[ [s0]]")),
        refused(19, in_pref("[[s0] ]")),
        refused(19, in_pref("{ {s0} }")),
        refused(19, in_pref("{{s0} }")),
        refused(19, in_pref("slen< =1")),
        refused(19, in_pref("slen> =1")),
        refused(19, in_pref("slen<\t=1")),
        refused(19, in_pref("<=s0>")),
        refused(19, in_pref("<s0>=")),
    ]
}

/// A formula in so many brackets, the clause's own not counted.
fn deep(brackets: usize) -> String {
    in_pref(&format!("{}slen=1{}", "(".repeat(brackets), ")".repeat(brackets)))
}

fn brackets() -> Vec<TextCase> {
    let one = || {
        let mut sheet = Sheet::new(2, 3);
        let root = sheet.slen(Compare::Equal, 1);
        sheet.pref(Commitment, Part(root, 0b111));
        sheet
    };
    let single = |open: usize, closed: usize| {
        let inner = format!("{}s0{}", "(".repeat(open), ")".repeat(closed));
        in_pref(&format!("<{inner}>"))
    };
    let starred = {
        let mut sheet = Sheet::new(2, 3);
        let mut root = sheet.slen(Compare::Equal, 1);
        for _ in 0..31 {
            root = sheet.star(root);
        }
        sheet.pref(Commitment, Part(root, 0b111));
        sheet
    };
    let stars =
        |count: usize| in_pref(&format!("{}slen=1{}", "(".repeat(count), ")*".repeat(count)));
    vec![
        reads(deep(0), one()),
        reads(deep(30), one()),
        reads(deep(31), one()),
        refused(18, deep(32)),
        refused(18, deep(33)),
        refused(18, deep(1000)),
        reads(stars(31), starred),
        refused(18, stars(32)),
        refused(18, single(32, 32)),
        refused(19, single(31, 30)),
        refused(19, single(30, 31)),
        refused(18, single(32, 31)),
        // Brackets side by side are not open together.
        formula(&["(slen=1)"; 20].join("^"), |s| {
            let mut row = s.slen(Compare::Equal, 1);
            for _ in 1..20 {
                let next = s.slen(Compare::Equal, 1);
                row = s.chop(row, next);
            }
            row
        }),
        // Drawings and counts have brackets too.
        refused(18, in_pref(&format!("{}at(u0){}", "(".repeat(31), ")".repeat(31)))),
        refused(18, in_pref(&format!("{}scount(s0)=1{}", "(".repeat(31), ")".repeat(31)))),
        // Whatever the bytes around them.
        refused(18, "(".repeat(33)),
        refused(19, "(".repeat(32)),
        refused(19, ")".repeat(100)),
        refused(19, ")".repeat(100) + &"(".repeat(32)),
        refused(18, ")".repeat(100) + &"(".repeat(33)),
        refused(19, "(".repeat(32) + ")(" + &")(".repeat(50)),
        refused(19, "(".repeat(31) + &"()".repeat(50)),
        refused(18, "(".repeat(32) + "()"),
        refused(19, "(".repeat(20) + &")".repeat(30) + &"(".repeat(32)),
        refused(18, "(".repeat(20) + &")".repeat(19) + &"(".repeat(32)),
        refused(18, "(\n".repeat(33)),
        refused(18, "(\0\u{e9}".repeat(33)),
        refused(18, "1 0\nrequire anti(slen=1:)\n".to_string() + &"(".repeat(33)),
        refused(18, "(".repeat(33) + "1 0\nrequire anti(slen=1:)\n"),
        // Left open on one line, they are open on the next.
        refused(18, "1 0\n".to_string() + &"require anti((slen=1:)\n".repeat(33)),
        refused(19, "1 0\n".to_string() + &"require anti((slen=1:)\n".repeat(31)),
        refused(19, "[".repeat(100)),
        refused(19, "<{".repeat(100)),
    ]
}

fn limits() -> Vec<TextCase> {
    // Chops of so many times slen = 1.
    let row = |slens: usize| vec!["slen=1"; slens].join("^");
    // As many nodes, which may be even.
    let nodes = |count: usize| {
        let not = if count.is_multiple_of(2) { "{{s0}}^" } else { "" };
        let used = if count.is_multiple_of(2) { 3 } else { 0 };
        in_pref(&format!("{not}{}", row((count - used).div_ceil(2))))
    };
    let full = |count: usize| {
        let mut sheet = Sheet::new(2, 3);
        let mut root = if count.is_multiple_of(2) {
            let p = sheet.signal(0);
            sheet.unit(p)
        } else {
            sheet.slen(Compare::Equal, 1)
        };
        while sheet.nodes.len() < count {
            let next = sheet.slen(Compare::Equal, 1);
            root = sheet.chop(root, next);
        }
        sheet.pref(Commitment, Part(root, 0b111));
        sheet
    };
    let clauses = |count: usize| {
        let mut sheet = Sheet::new(1, 0);
        for _ in 0..count {
            let root = sheet.slen(Compare::Equal, 1);
            sheet.anti(Commitment, Part(root, 0));
        }
        ("1 0\n".to_string() + &"require anti(slen=1:)\n".repeat(count), sheet)
    };
    let nots = |count: usize| in_pref(&format!("<{}s0>", "!".repeat(count)));
    let negated = |count: usize| {
        formula(&format!("<{}s0>", "!".repeat(count)), |s| {
            let mut p = s.signal(0);
            for _ in 0..count {
                p = s.not(p);
            }
            s.point(p)
        })
    };
    vec![
        reads(nodes(63), full(63)),
        reads(nodes(64), full(64)),
        refused(20, nodes(65)),
        refused(20, nodes(66)),
        refused(20, nodes(300)),
        refused(20, nodes(321)),
        reads(clauses(7).0, clauses(7).1),
        reads(clauses(8).0, clauses(8).1),
        refused(20, clauses(9).0),
        refused(20, clauses(256).0),
        refused(20, clauses(264).0),
        negated(40),
        negated(62),
        refused(20, nots(63)),
        refused(20, nots(200)),
        // Nodes of all clauses together.
        refused(20, format!("1 0\nrequire anti({}:)\nassume anti({}:)\n", row(17), row(17))),
        refused(20, format!("1 0\nrequire implies({}:,{}:)\n", row(17), row(17))),
    ]
}

fn later_refusals() -> Vec<TextCase> {
    let with = |first: &str, part: &str| format!("{first}\nrequire anti({part})\n");
    vec![
        refused(6, with("1 0", "<s1>:")),
        refused(6, with("15 0", "<s15>:")),
        refused(6, with("1 0", "<u0>:u0")),
        refused(6, with("1 2", "<u2>:u2")),
        refused(6, with("1 0", "draw(8,s0):")),
        refused(6, with("1 0", "draw(255,s0):")),
        refused(6, with("1 0", "draw(256,s0):")),
        refused(6, with("1 0", "draw(263,s0):")),
        refused(6, with("1 0", "draw(300,s0):")),
        refused(6, with("1 0", "draw(65535,s0):")),
        refused(6, with("2 0", "draw(0,s2):")),
        refused(6, with("1 1", "at(u1):u0u1")),
        refused(6, with("1 1", "gap(u0,u1,0,1):u0u1")),
        refused(6, with("1 1", "gap(u1,u0,0,1):u0u1")),
        refused(6, with("1 1", "gap(u0,u0,2,1):u0")),
        refused(6, with("1 1", "gap(u0,u0,256,255):u0")),
        refused(9, with("1 0", "<s0>:u0")),
        refused(9, with("1 1", "<s0>:u1")),
        refused(9, with("1 2", "<s0>:u0u1u2")),
        refused(9, with("1 1", "<u0>:")),
        refused(9, with("1 3", "<u0&!u2>:u0u1")),
        refused(9, with("1 3", "(at(u2)^slen=1)*:u0u1")),
        refused(9, with("1 3", "gap(u0,u1,0,1):u0")),
        refused(9, with("1 3", "gap(u0,u1,0,1):u1")),
        refused(9, "1 1\nrequire implies(at(u0):u0,at(u0):)\n"),
        refused(9, "1 1\nrequire follows(slen=1:,slen=1:,at(u0):)\n"),
    ]
}

/// The lowest of two that apply, 18, 19 and 20 before the others.
fn order_of_refusals() -> Vec<TextCase> {
    let many = vec!["slen=1"; 33].join("|");
    let deep = format!("{}slen=1{}", "(".repeat(32), ")".repeat(32));
    let with = |first: &str, part: &str| format!("{first}\nrequire anti({part})\n");
    vec![
        refused(18, with("1", &format!("{deep}:"))),
        refused(18, with("1 0", &format!("{deep}|{many}:"))),
        refused(18, with("0 9", &format!("{deep}:"))),
        refused(19, with("1 0", &format!("{many}|:"))),
        refused(19, with("1", &format!("{many}:"))),
        refused(19, "1 0\n".to_string() + &"require anti(slen=1:)\n".repeat(9) + "\n"),
        refused(19, with("0 9", "slen=65536:")),
        refused(19, with("0 9", "slen=1")),
        refused(20, with("0 9", &format!("{many}:"))),
        refused(20, with("1 0", &format!("{many}|<s1>:u0"))),
        refused(20, "300 0\n".to_string() + &"require anti(<s1>:u0)\n".repeat(9)),
        refused(4, with("0 0", "<s1>:")),
        refused(4, with("1 4", "draw(9,s0):u0")),
        refused(4, with("17 0", "<s0>:u0")),
        refused(6, with("1 0", "<s1>:u0")),
        refused(6, "1 0\nrequire anti(<s0>:u0)\nassume anti(draw(8,s0):)\n"),
    ]
}
