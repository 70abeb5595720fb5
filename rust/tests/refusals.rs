//! Each refusal number, alone and with each higher one: the lowest that applies is the answer. For
//! what a board refuses to be fed `board` has the same.

mod build;
mod compare;
mod reference;

use build::Role::*;
use build::{Compare, Node, Part, Sheet, Symbol, Trace};
use compare::board::Boards;
use reference::Number;

/// What an operation is given.
#[derive(Clone)]
struct Input {
    sheet: Sheet,
    trace: Trace,
    words: usize,
    rows: usize,
    out: usize,
    node: usize,
    cycles: [usize; 3],
}

/// Nodes that nothing names: one for damage 6 and one for damage 7.
const SPARE_6: usize = 7;
const SPARE_7: usize = 8;

fn sound() -> Input {
    let mut sheet = Sheet::new(2, 2);
    let p = sheet.signal(0);
    let u = sheet.name(0);
    let at_u = sheet.point(u);
    let mark = sheet.mark(1);
    let row = sheet.chop(at_u, mark);
    let high = sheet.symbol(Symbol::High, 1);
    let at_p = sheet.point(p);
    assert_eq!(sheet.anywhere(), Node(SPARE_6 as u16));
    assert_eq!(sheet.slen(Compare::Equal, 1), Node(SPARE_7 as u16));
    sheet.implies(Commitment, Part(row, 0b11), Part(at_p, 0));
    sheet.follows(Commitment, Part(row, 0b11), Part(high, 0), Part(at_u, 0b01));
    sheet.anti(Assumption, Part(mark, 0b10));
    Input {
        sheet,
        trace: Trace::drawn(&["0110", "0011"]),
        words: 4096,
        rows: 64,
        out: 8192,
        node: 4,
        cycles: [3, 0, 99],
    }
}

/// The sound input with every clause turned to advice, which is read like the others.
fn advised() -> Input {
    let input = sound();
    Input { sheet: input.sheet.with_advice(input.sheet.all_clauses()), ..input }
}

type Damage = (Number, &'static str, fn(&mut Input));

fn spare_6(input: &mut Input, node: [u8; 6]) {
    input.sheet.nodes[SPARE_6] = node;
}

fn spare_7(input: &mut Input, node: [u8; 6]) {
    input.sheet.nodes[SPARE_7] = node;
}

fn count_nodes(input: &mut Input, nodes: usize) {
    input.sheet.nodes.resize(nodes, [2, 0, 0, 0, 0, 0]);
    input.sheet.nodes_off = 0;
}

fn count_clauses(input: &mut Input, clauses: usize) {
    input.sheet.clauses.resize(clauses, [3, 0, 0, 3, 0, 0, 0, 0, 2, 0, 0]);
    input.sheet.clauses_off = 0;
}

/// Damage 8 is done to clauses 0 and 2, damage 9 to clause 1.
#[rustfmt::skip]
fn damages() -> Vec<Damage> {
    vec![
        (1, "no bytes", |i| i.sheet.cut = Some(0)),
        (1, "one byte", |i| i.sheet.cut = Some(1)),
        (1, "eight bytes", |i| i.sheet.cut = Some(8)),
        (1, "length field one more", |i| i.sheet.length_off = 1),
        (1, "length field one less", |i| i.sheet.length_off = -1),
        (1, "length field with its two bytes", |i| i.sheet.length_off = 2),
        (1, "length field 256 more", |i| i.sheet.length_off = 256),
        (1, "65,536 bytes more", |i| {
            i.sheet.cut = None;
            i.sheet.tail = vec![0; 65_536];
        }),
        (2, "version 0", |i| i.sheet.version = 0),
        (2, "version 2", |i| i.sheet.version = 2),
        (2, "version 255", |i| i.sheet.version = 255),
        (3, "kind 0", |i| i.sheet.kind = 0),
        (3, "kind 2", |i| i.sheet.kind = 2),
        (3, "kind 3", |i| i.sheet.kind = 3),
        (4, "no signals", |i| i.sheet.signals = 0),
        (4, "17 signals", |i| i.sheet.signals = 17),
        (4, "4 names", |i| i.sheet.names = 4),
        (4, "255 names", |i| i.sheet.names = 255),
        (4, "no nodes", |i| count_nodes(i, 0)),
        (4, "65 nodes", |i| count_nodes(i, 65)),
        (4, "256 nodes more", |i| i.sheet.nodes_off = 256),
        (4, "no clauses", |i| count_clauses(i, 0)),
        (4, "9 clauses", |i| count_clauses(i, 9)),
        (4, "255 clauses", |i| i.sheet.clauses_off = 255 - i.sheet.clauses.len() as i32),
        (5, "a byte more", |i| i.sheet.tail = vec![0]),
        (5, "a node's bytes more", |i| i.sheet.tail = vec![0; 6]),
        (5, "a byte less", |i| i.sheet.cut = Some(i.sheet.bytes().len() - 1)),
        (5, "nine bytes", |i| i.sheet.cut = Some(9)),
        (5, "a node more in the count", |i| i.sheet.nodes_off = 1),
        (5, "a node less in the count", |i| i.sheet.nodes_off = -1),
        (5, "a clause more in the count", |i| i.sheet.clauses_off = 1),
        (5, "a clause less in the count", |i| i.sheet.clauses_off = -1),
        (6, "op 0", |i| spare_6(i, [0, 0, 0, 0, 0, 0])),
        (6, "op 8", |i| spare_6(i, [8, 0, 0, 0, 0, 0])),
        (6, "op 15", |i| spare_6(i, [15, 0, 0, 0, 0, 0])),
        (6, "op 30", |i| spare_6(i, [30, 0, 0, 2, 0, 0])),
        (6, "op 31", |i| spare_6(i, [31, 0, 0, 2, 0, 0])),
        (6, "op 32", |i| spare_6(i, [32, 0, 0, 0, 0, 0])),
        (6, "op 255", |i| spare_6(i, [255, 0, 0, 0, 0, 0])),
        (6, "q of false", |i| spare_6(i, [1, 1, 0, 0, 0, 0])),
        (6, "a of true", |i| spare_6(i, [2, 0, 0, 1, 0, 0])),
        (6, "high byte of a of true", |i| spare_6(i, [2, 0, 1, 0, 0, 0])),
        (6, "b of false", |i| spare_6(i, [1, 0, 0, 0, 0, 1])),
        (6, "q of a signal", |i| spare_6(i, [3, 1, 0, 0, 0, 0])),
        (6, "b of a signal", |i| spare_6(i, [3, 0, 0, 0, 1, 0])),
        (6, "signal 2 of 2", |i| spare_6(i, [3, 0, 0, 2, 0, 0])),
        (6, "signal 256", |i| spare_6(i, [3, 0, 1, 0, 0, 0])),
        (6, "q of a name", |i| spare_6(i, [4, 1, 0, 0, 0, 0])),
        (6, "b of a name", |i| spare_6(i, [4, 0, 0, 0, 0, 1])),
        (6, "name 2 of 2", |i| spare_6(i, [4, 0, 0, 2, 0, 0])),
        (6, "name 256", |i| spare_6(i, [4, 0, 1, 0, 0, 0])),
        (6, "q of not", |i| spare_6(i, [5, 1, 0, 0, 0, 0])),
        (6, "b of not", |i| spare_6(i, [5, 0, 0, 0, 0, 1])),
        (6, "q of and", |i| spare_6(i, [6, 1, 0, 0, 0, 0])),
        (6, "q of or", |i| spare_6(i, [7, 1, 0, 0, 0, 0])),
        (6, "q of ⟨ ⟩", |i| spare_6(i, [16, 1, 0, 0, 0, 0])),
        (6, "b of ⟨ ⟩", |i| spare_6(i, [16, 0, 0, 0, 0, 1])),
        (6, "q of [ ]", |i| spare_6(i, [17, 1, 0, 0, 0, 0])),
        (6, "b of [ ]", |i| spare_6(i, [17, 0, 0, 0, 0, 1])),
        (6, "q of [[ ]]", |i| spare_6(i, [18, 1, 0, 0, 0, 0])),
        (6, "b of [[ ]]", |i| spare_6(i, [18, 0, 0, 0, 0, 1])),
        (6, "q of {{ }}", |i| spare_6(i, [19, 1, 0, 0, 0, 0])),
        (6, "b of {{ }}", |i| spare_6(i, [19, 0, 0, 0, 0, 1])),
        (6, "q of chop", |i| spare_6(i, [20, 1, 0, 2, 0, 2])),
        (6, "q of and, formulas", |i| spare_6(i, [21, 1, 0, 2, 0, 2])),
        (6, "q of or, formulas", |i| spare_6(i, [22, 1, 0, 2, 0, 2])),
        (6, "q of star", |i| spare_6(i, [23, 1, 0, 2, 0, 0])),
        (6, "b of star", |i| spare_6(i, [23, 0, 0, 2, 0, 2])),
        (6, "a of slen", |i| spare_6(i, [24, 0, 0, 2, 0, 2])),
        (6, "comparison 5 of slen", |i| spare_6(i, [24, 5, 0, 0, 0, 2])),
        (6, "comparison 5 of scount", |i| spare_6(i, [25, 5, 0, 0, 0, 2])),
        (6, "comparison 5 of sdur", |i| spare_6(i, [26, 5, 0, 0, 0, 2])),
        (6, "comparison 255 of sdur", |i| spare_6(i, [26, 255, 0, 0, 0, 2])),
        (6, "symbol 8", |i| spare_6(i, [27, 8, 0, 0, 0, 0])),
        (6, "symbol on signal 2 of 2", |i| spare_6(i, [27, 0, 0, 2, 0, 0])),
        (6, "b of a symbol", |i| spare_6(i, [27, 0, 0, 0, 0, 1])),
        (6, "mark 2 of 2", |i| spare_6(i, [28, 0, 0, 2, 0, 0])),
        (6, "q of a mark", |i| spare_6(i, [28, 1, 0, 0, 0, 0])),
        (6, "b of a mark", |i| spare_6(i, [28, 0, 0, 0, 0, 1])),
        (6, "gap from name 2 of 2", |i| spare_6(i, [29, 0x20, 0, 0, 0, 1])),
        (6, "gap to name 2 of 2", |i| spare_6(i, [29, 0x02, 0, 0, 0, 1])),
        (6, "gap to name 15", |i| spare_6(i, [29, 0x0F, 0, 0, 0, 1])),
        (6, "gap with a > b", |i| spare_6(i, [29, 0x01, 0, 2, 0, 1])),
        (6, "gap with a > b in the high bytes", |i| spare_6(i, [29, 0x01, 1, 0, 0, 255])),
        (7, "not of itself", |i| spare_7(i, [5, 0, 0, SPARE_7 as u8, 0, 0])),
        (7, "not of a formula", |i| spare_7(i, [5, 0, 0, 2, 0, 0])),
        (7, "and with a formula first", |i| spare_7(i, [6, 0, 0, 2, 0, 0])),
        (7, "and with a formula second", |i| spare_7(i, [6, 0, 0, 0, 0, 2])),
        (7, "or with a later node", |i| spare_7(i, [7, 0, 0, 0, 0, 63])),
        (7, "or with a far node", |i| spare_7(i, [7, 0, 1, 0, 0, 0])),
        (7, "⟨ ⟩ of a formula", |i| spare_7(i, [16, 0, 0, 2, 0, 0])),
        (7, "[ ] of itself", |i| spare_7(i, [17, 0, 0, SPARE_7 as u8, 0, 0])),
        (7, "[[ ]] of no node", |i| spare_7(i, [18, 0, 255, 255, 0, 0])),
        (7, "{{ }} of a formula", |i| spare_7(i, [19, 0, 0, 3, 0, 0])),
        (7, "chop of a proposition first", |i| spare_7(i, [20, 0, 0, 0, 0, 2])),
        (7, "chop of a proposition second", |i| spare_7(i, [20, 0, 0, 2, 0, 0])),
        (7, "chop of itself", |i| spare_7(i, [20, 0, 0, 2, 0, SPARE_7 as u8])),
        (7, "and of a proposition", |i| spare_7(i, [21, 0, 0, 2, 0, 1])),
        (7, "or of a proposition", |i| spare_7(i, [22, 0, 0, 1, 0, 2])),
        (7, "star of a proposition", |i| spare_7(i, [23, 0, 0, 0, 0, 0])),
        (7, "star of itself", |i| spare_7(i, [23, 0, 0, SPARE_7 as u8, 0, 0])),
        (7, "scount of a formula", |i| spare_7(i, [25, 0, 0, 2, 0, 0])),
        (7, "sdur of itself", |i| spare_7(i, [26, 0, 0, SPARE_7 as u8, 0, 0])),
        (8, "type 0", |i| i.sheet.clauses[0][0] = 0),
        (8, "type 7", |i| i.sheet.clauses[0][0] = 7),
        (8, "role 3", |i| i.sheet.clauses[0][1] = 3),
        (8, "role 255", |i| i.sheet.clauses[2][1] = 255),
        (8, "a root past the nodes", |i| i.sheet.clauses[0][3] = 9),
        (8, "a far root", |i| i.sheet.clauses[0][2] = 1),
        (8, "a proposition as first root", |i| i.sheet.clauses[0][3] = 0),
        (8, "a proposition as second root", |i| i.sheet.clauses[0][5] = 1),
        (8, "a proposition as third root", |i| {
            i.sheet.clauses[0] = [5, 1, 0, 4, 0, 6, 0, 0, 3, 0, 0]
        }),
        (8, "an unused third root", |i| i.sheet.clauses[0][7] = 2),
        (8, "an unused third mask", |i| i.sheet.clauses[0][10] = 1),
        (8, "an unused second root", |i| i.sheet.clauses[2][5] = 2),
        (8, "an unused second mask", |i| i.sheet.clauses[2][9] = 1),
        (8, "an unused second root of pref", |i| {
            i.sheet.clauses[0] = [1, 1, 0, 4, 0, 2, 0, 0, 3, 0, 0]
        }),
        (8, "an unused third mask of init", |i| {
            i.sheet.clauses[0] = [2, 1, 0, 4, 0, 2, 0, 0, 3, 1, 1]
        }),
        (9, "a mask with name 2 of 2", |i| i.sheet.clauses[1][8] = 0b111),
        (9, "a mask with bit 7", |i| i.sheet.clauses[1][9] = 0b1000_0000),
        (9, "a third mask with bit 3", |i| i.sheet.clauses[1][10] = 0b1001),
        (9, "a first part without its name", |i| i.sheet.clauses[1][8] = 0b01),
        (9, "a third part without its name", |i| i.sheet.clauses[1][10] = 0b10),
        (9, "a part without the names of a gap", |i| {
            i.sheet.nodes[5] = [29, 0x01, 0, 0, 0, 1];
            i.sheet.clauses[1][9] = 0b01;
        }),
        (10, "no trace", |i| i.trace.cut = Some(0)),
        (10, "one byte of a trace", |i| i.trace.cut = Some(1)),
        (10, "three bytes of a trace", |i| i.trace.cut = Some(3)),
        (10, "trace length one more", |i| i.trace.length_off = 1),
        (10, "trace length one less", |i| i.trace.length_off = -1),
        (10, "trace length with its bytes", |i| i.trace.length_off = 2),
        (10, "65,536 bytes of a trace more", |i| {
            i.trace.cut = None;
            i.trace.tail = vec![0; 65_536];
        }),
        (11, "trace version 0", |i| i.trace.version = 0),
        (11, "trace version 2", |i| i.trace.version = 2),
        (12, "a signal less", |i| i.trace.signals = 1),
        (12, "a signal more", |i| i.trace.signals = 3),
        (12, "no signals in the trace", |i| i.trace.signals = 0),
        (13, "no cycles", |i| i.trace.cycles.clear()),
        (13, "65 cycles", |i| i.trace.cycles.resize(65, 0)),
        (13, "half a cycle", |i| i.trace.tail = vec![0]),
        (13, "64 cycles and a half", |i| {
            i.trace.cycles.resize(64, 0);
            i.trace.tail = vec![0];
        }),
        (13, "a bit for signal 2 of 2", |i| i.trace.cycles[1] |= 4),
        (13, "bit 15 of the last cycle", |i| i.trace.cycles[3] |= 0x8000),
        (14, "8,191 bytes", |i| i.out = 8191),
        (14, "no bytes of output", |i| i.out = 0),
        (15, "4,095 words", |i| i.words = 4095),
        (15, "no words", |i| i.words = 0),
        (15, "63 rows", |i| i.rows = 63),
        (15, "no rows", |i| i.rows = 0),
        (16, "a proposition asked for", |i| i.node = 0),
        (16, "a node past the last", |i| i.node = 9),
        (16, "a node far past the last", |i| i.node = usize::MAX),
        (17, "name 0 at the trace's length", |i| i.cycles[0] = i.trace.cycles.len()),
        (17, "name 1 past the trace", |i| i.cycles[1] = 64),
        (17, "name 1 far past the trace", |i| i.cycles[1] = usize::MAX),
    ]
}

#[derive(Clone, Copy, Debug)]
enum Operation {
    Check,
    Table,
    Translate,
    Open,
}

impl Operation {
    /// Whether a damage concerns the operation.
    fn concerned(self, (number, what, _): &Damage) -> bool {
        match self {
            Operation::Check => matches!(number, 1..=13 | 15) && !what.ends_with("rows"),
            Operation::Table => matches!(number, 1..=13 | 15..=17),
            Operation::Translate => matches!(number, 1..=9 | 14),
            Operation::Open => matches!(number, 1..=9),
        }
    }

    fn refusal(self, input: &Input) -> Option<Number> {
        let Input { words, rows, out, node, cycles, .. } = *input;
        let (sheet, trace) = (input.sheet.bytes(), input.trace.bytes());
        match self {
            Operation::Check => compare::check(&sheet, &trace, words).err(),
            Operation::Table => compare::table(&sheet, &trace, node, cycles, words, rows).err(),
            Operation::Translate => compare::translate(&sheet, out).err(),
            Operation::Open => Boards::open(&sheet).err(),
        }
    }
}

const OPERATIONS: [Operation; 4] =
    [Operation::Check, Operation::Table, Operation::Translate, Operation::Open];

/// Every role below 3 is taken, in whichever clause.
#[test]
fn none() {
    for roles in 0..27 {
        let mut input = sound();
        let each = [roles % 3, roles / 3 % 3, roles / 9];
        for (clause, role) in input.sheet.clauses.iter_mut().zip(each) {
            clause[1] = role;
        }
        for operation in OPERATIONS {
            assert_eq!(operation.refusal(&input), None, "{operation:?}, roles {each:?}");
        }
    }
}

#[test]
fn alone() {
    let damages = damages();
    for number in 1..=17 {
        assert!(damages.iter().any(|damage| damage.0 == number), "no damage for {number}");
    }
    for damage in &damages {
        for mut input in [sound(), advised()] {
            damage.2(&mut input);
            for operation in OPERATIONS {
                let expected = operation.concerned(damage).then_some(damage.0);
                assert_eq!(operation.refusal(&input), expected, "{operation:?}, {}", damage.1);
            }
        }
    }
    compare::report(format!(
        "refusals alone: {} damages, with advice and without, {} operations each",
        damages.len(),
        OPERATIONS.len()
    ));
}

#[test]
fn two_at_once() {
    let damages = damages();
    let mut pairs = 0;
    for (at, low) in damages.iter().enumerate() {
        for high in damages[at..].iter().filter(|high| high.0 > low.0) {
            let mut input = sound();
            high.2(&mut input);
            low.2(&mut input);
            for operation in OPERATIONS {
                let lowest = [low, high].into_iter().find(|damage| operation.concerned(damage));
                assert_eq!(
                    operation.refusal(&input),
                    lowest.map(|damage| damage.0),
                    "{operation:?}, {} and {}",
                    low.1,
                    high.1
                );
            }
            pairs += 1;
        }
    }
    let operations = OPERATIONS.len();
    compare::report(format!("refusals two at once: {pairs} pairs, {operations} operations each"));
}
