//! An emitted formula is all of what is written: its root reaches every node, each name stands under
//! its quantifier, and what no assumption or commitment needs is not there.

mod build;
mod cases;
mod compare;
mod generate;
mod reference;

use build::{hex, Part, Role::*, Sheet};
use cases::{advice, examples, names, paper};
use generate::{Draw, Random, Shape, DRAWS};
use reference::stored::{self, operands, Node};

/// For each node whether the last one reaches it, and the names that are quantified on every way
/// from there to it, as a mask.
fn ways(nodes: &[Node]) -> Vec<Option<u8>> {
    let mut ways = vec![None; nodes.len()];
    ways[nodes.len() - 1] = Some(0);
    for (i, node) in nodes.iter().enumerate().rev() {
        let Some(over) = ways[i] else { continue };
        let under = if node.op == 31 { over | 1 << node.b } else { over };
        for (operand, _) in operands(node) {
            ways[operand] = Some(ways[operand].map_or(under, |earlier| earlier & under));
        }
    }
    ways
}

/// The formula of a sheet, whose every node is reached and whose every name is quantified.
fn formula(sheet: &[u8]) -> stored::Sheet {
    let formula = compare::translate(sheet, 8192).unwrap().formula;
    for (i, (node, way)) in formula.nodes.iter().zip(ways(&formula.nodes)).enumerate() {
        let replay = || format!("node {i} of the formula\nsheet {}", hex(sheet));
        let Some(over) = way else { panic!("not reached: {}", replay()) };
        assert!(node.op != 4 || over >> node.a & 1 == 1, "not quantified: {}", replay());
    }
    formula
}

/// The nodes of a formula, as they are stored.
fn bytes(formula: &stored::Sheet) -> Vec<(u8, u8, usize, usize)> {
    formula.nodes.iter().map(|node| (node.op, node.q, node.a, node.b)).collect()
}

/// What of a sheet its assumptions and commitments need: those clauses, and the nodes that they
/// reach, in their order. Nothing if all clauses are advice.
fn needed(sheet: &Sheet) -> Option<Sheet> {
    let source = stored::read(&sheet.bytes());
    let mut used = vec![false; source.nodes.len()];
    for clause in source.clauses.iter().filter(|clause| clause.role != 2) {
        for &root in &clause.roots[..clause.parts()] {
            used[root] = true;
        }
    }
    for (i, node) in source.nodes.iter().enumerate().rev() {
        if used[i] {
            operands(node).iter().for_each(|&(operand, _)| used[operand] = true);
        }
    }
    let number = |i: usize| used[..i].iter().filter(|&&used| used).count() as u16;
    let mut left = Sheet { nodes: vec![], ..sheet.without(0) };
    for (node, _) in source.nodes.iter().zip(&used).filter(|(_, &used)| used) {
        let (a, b) = match operands(node).len() {
            0 => (node.a as u16, node.b as u16),
            1 => (number(node.a), node.b as u16),
            _ => (number(node.a), number(node.b)),
        };
        left.node(node.op, node.q, a, b);
    }
    left.clauses = (sheet.clauses.iter().zip(&source.clauses))
        .filter(|(_, clause)| clause.role != 2)
        .map(|(stored, clause)| {
            let mut stored = *stored;
            for k in 0..clause.parts() {
                stored[2 + 2 * k..4 + 2 * k]
                    .copy_from_slice(&number(clause.roots[k]).to_be_bytes());
            }
            stored
        })
        .collect();
    (!left.clauses.is_empty()).then_some(left)
}

/// Random sheets: their formula is that of what their assumptions and commitments need.
fn random(seed: u64, draw: Draw, what: &str, least: [usize; 3]) {
    let mut random = Random::new(seed);
    let [mut written, mut advised, mut shorter] = [0; 3];
    for _ in 0..4000 {
        let shape = Shape {
            signals: random.between(1, 16),
            names: random.below(4),
            nodes: random.between(2, 64),
            clauses: random.between(1, 8),
            numbers: random.pick(&[5, 70]),
        };
        let drawn = draw(&mut random, shape);
        let sheet = match random.below(3) {
            0 => drawn,
            1 => generate::advised(&mut random, &drawn),
            _ => generate::in_any_role(&mut random, &drawn),
        };
        let formula = formula(&sheet.bytes());
        written += formula.nodes.len();
        advised += sheet.clauses.iter().any(|clause| clause[1] == 2) as usize;
        if let Some(needed) = needed(&sheet) {
            shorter += (needed.nodes.len() < sheet.nodes.len()) as usize;
            let alone = self::formula(&needed.bytes());
            assert_eq!(bytes(&formula), bytes(&alone), "sheet {}", hex(&sheet.bytes()));
        }
    }
    compare::report(format!(
        "{what}: 4000 formulas of {written} nodes, all reached and closed; {advised} sheets with \
         advice, {shorter} with nodes that no other clause reaches"
    ));
    let enough =
        [written, advised, shorter].iter().zip(&least).all(|(count, least)| count >= least);
    assert!(enough, "{what}: {least:?} are demanded");
}

#[test]
fn plain_sheets() {
    random(71, DRAWS[0], "plain", [100_000, 1500, 2000]);
}

#[test]
fn drawn_sheets() {
    random(72, DRAWS[1], "drawn", [100_000, 1500, 1000]);
}

#[test]
fn marked_sheets() {
    random(73, DRAWS[2], "marked", [50_000, 1000, 500]);
}

#[test]
fn examples_and_published_sheets() {
    let mut cases = vec![examples::program()];
    cases.extend(examples::corners());
    cases.extend(names::cases().into_iter().map(|stays| stays.case));
    cases.extend(paper::cases());
    cases.extend(advice::cases().into_iter().map(|advised| advised.case));
    for case in cases {
        formula(&case.sheet);
    }
}

/// `2 1`, `require anti(<s0>:)` and `require anti(at(u0)^<s1>:u0)`: with the second clause as advice
/// neither its nodes nor the name are in the formula.
#[test]
fn advice_beside_a_commitment() {
    let mut sheet = Sheet::new(2, 1);
    let signal = sheet.signal(0);
    let root = sheet.point(signal);
    sheet.anti(Commitment, Part(root, 0));
    let alone = sheet.clone();
    let mark = sheet.mark(0);
    let signal = sheet.signal(1);
    let point = sheet.point(signal);
    let root = sheet.chop(mark, point);
    sheet.anti(Commitment, Part(root, 1));
    let formula = formula(&sheet.with_advice(0b10).bytes());
    assert_eq!(formula.nodes.len(), 9);
    assert_eq!(bytes(&formula), bytes(&self::formula(&alone.bytes())));
    // Of advice alone there is nothing to be true or false of: no clause of either role fails.
    let nothing = self::formula(&sheet.with_advice(0b11).bytes());
    assert_eq!(bytes(&nothing), [(24, 0, 0, 0), (30, 0, 0, 0), (22, 0, 0, 1)]);
}

/// Where every node and name is reached by an assumption or commitment and every shared node is
/// used, the shared nodes stand first, then the sheet's in their order, then the clauses': nothing is
/// left out and nothing is merged, so a formula is what it was before unreached nodes were.
#[test]
fn nothing_to_leave_out() {
    let mut sheet = Sheet::new(1, 1);
    let mark = sheet.mark(0);
    let signal = sheet.signal(0);
    let point = sheet.point(signal);
    let end = sheet.whole(signal);
    sheet.follows(Commitment, Part(mark, 1), Part(point, 0), Part(end, 0));
    let expected = [
        // Any length, a length above 0, none; the name, and that it has one mark.
        (24, 3, 0, 0),
        (24, 4, 0, 0),
        (24, 0, 0, 0),
        (4, 0, 0, 0),
        (25, 2, 3, 1),
        // The sheet's nodes, its drawing told by three.
        (24, 2, 0, 0),
        (16, 0, 3, 0),
        (21, 0, 5, 6),
        (3, 0, 0, 0),
        (16, 0, 8, 0),
        (18, 0, 8, 0),
        // The clause, and the requirement.
        (21, 0, 4, 7),
        (20, 0, 10, 1),
        (30, 0, 12, 0),
        (21, 0, 10, 13),
        (20, 0, 9, 0),
        (30, 0, 15, 0),
        (21, 0, 14, 16),
        (20, 0, 17, 0),
        (20, 0, 11, 18),
        (21, 0, 4, 19),
        (31, 0, 20, 0),
        (20, 0, 0, 21),
        (22, 0, 2, 22),
        (30, 0, 23, 0),
        (22, 0, 2, 24),
    ];
    assert_eq!(bytes(&formula(&sheet.bytes())), expected);
}
