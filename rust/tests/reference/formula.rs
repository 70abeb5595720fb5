//! Emitted formulas, sheets of kind 2: their form, their bound and when one is true of a trace.

use super::meaning::Meaning;
use super::stored::{self, is_formula, is_proposition, operands, Node, Sheet};

/// The formula that the bytes store, if they have the form that a translation of the sheet is to
/// have; else what is wrong with them.
pub fn formula(bytes: &[u8], source: &Sheet) -> Result<Sheet, String> {
    let demand = |ok: bool, what: &str| if ok { Ok(()) } else { Err(what.to_string()) };
    demand(bytes.len() >= 9, "under 9 bytes")?;
    demand(stored::field(bytes, 0) == bytes.len() - 2, "length field")?;
    demand(bytes[2] == 1, "version")?;
    demand(bytes[3] == 2, "kind")?;
    demand(bytes[4] as usize == source.signals, "signals")?;
    demand(bytes[5] as usize == source.names, "names")?;
    demand(bytes[8] == 0, "clauses")?;
    let nodes = stored::field(bytes, 6);
    demand(bytes.len() == 9 + 6 * nodes, "node count")?;
    demand(nodes >= 1, "no root")?;
    demand(nodes <= bound(source), "more nodes than the bound")?;
    let formula = stored::read(bytes);
    for (i, node) in formula.nodes.iter().enumerate() {
        let of_kind = is_proposition(node.op) || matches!(node.op, 16..=26 | 30 | 31);
        demand(of_kind, &format!("op of node {i}"))?;
        demand(!stored::an_unused_field_is_set(node), &format!("unused field of node {i}"))?;
        let in_range = !stored::a_field_is_out_of_range(node, source.signals, source.names);
        demand(in_range, &format!("field of node {i}"))?;
    }
    demand(!stored::some_operand_is_wrong(&formula), "operand")?;
    demand(is_formula(formula.nodes[nodes - 1].op), "the root is a proposition")?;
    demand(free(&formula.nodes)[nodes - 1].is_empty(), "a name is free at the root")?;
    Ok(formula)
}

/// For each node, the names that it reaches outside their quantifiers.
fn free(nodes: &[Node]) -> Vec<Vec<usize>> {
    let mut free: Vec<Vec<usize>> = vec![];
    for node in nodes {
        let mut names = vec![];
        if node.op == 4 {
            names.push(node.a);
        }
        for (operand, _) in operands(node) {
            names.extend(&free[operand]);
        }
        if node.op == 31 {
            names.retain(|&name| name != node.b);
        }
        names.sort();
        names.dedup();
        free.push(names);
    }
    free
}

/// The most nodes that the formula of the sheet may have.
pub fn bound(source: &Sheet) -> usize {
    let (n, m, c) = (source.nodes.len(), source.names, source.clauses.len());
    let d = source.nodes.iter().filter(|node| (27..=29).contains(&node.op)).count();
    n + 11 * d + 3 + 2 * m + c * (16 + 5 * m)
}

/// Whether the root holds from the first cycle to the last, all columns zero outside quantifiers.
pub fn truth(formula: &Sheet, trace: &[u16]) -> bool {
    let root = formula.nodes.len() - 1;
    Meaning::new(&formula.nodes, trace).holds(root, [0; 3], 0, trace.len() - 1)
}
