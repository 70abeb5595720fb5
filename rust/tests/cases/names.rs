//! Request 4: a name stays where the first part that lists it has it.

use super::Case;
use crate::build::Role::Commitment;
use crate::build::{Compare, Node, Part, Sheet, Trace};
use crate::reference::clauses::Finding::{self, *};

/// A case on three cycles, and the finding that the rule before the request gave.
pub struct Stays {
    pub case: Case,
    pub before: Finding,
}

/// A sheet of one clause and one name, over the nodes that it is made of.
struct Parts {
    sheet: Sheet,
    point: Node,
    two: Node,
    three: Node,
    never: Node,
    /// Of any length, its last cycle marked; of three cycles; and of two, its first marked.
    to_mark: Node,
    three_to_mark: Node,
    from_mark: Node,
    unmarked: Node,
    marked: Node,
}

impl Parts {
    fn new() -> Self {
        let mut sheet = Sheet::new(1, 1);
        let [point, two, three] = [0, 1, 2].map(|n| sheet.slen(Compare::Equal, n));
        let never = sheet.slen(Compare::Less, 0);
        let (any, mark) = (sheet.anywhere(), sheet.mark(0));
        let to_mark = sheet.chop(any, mark);
        let three_to_mark = sheet.chop(three, mark);
        let from_mark = sheet.chop(mark, two);
        let name = sheet.name(0);
        let unmarked = sheet.scount(name, Compare::Equal, 0);
        let marked = sheet.scount(name, Compare::AtLeast, 1);
        Parts {
            sheet,
            point,
            two,
            three,
            never,
            to_mark,
            three_to_mark,
            from_mark,
            unmarked,
            marked,
        }
    }
}

fn stays(
    what: &'static str,
    clause: impl Fn(&mut Sheet, &Parts),
    finding: Finding,
    before: Finding,
) -> Stays {
    let parts = Parts::new();
    let mut sheet = parts.sheet.clone();
    clause(&mut sheet, &parts);
    Stays { case: Case::new(what, &sheet, &Trace::drawn(&["000"]), finding), before }
}

pub fn cases() -> Vec<Stays> {
    let lists = |root| Part(root, 1);
    let plain = |root| Part(root, 0);
    vec![
        stays(
            "init, the name after D1",
            |s, p| s.init(Commitment, lists(p.point), lists(p.to_mark)),
            Holds,
            Broken(0, 0, 1, 1),
        ),
        stays(
            "implies, one interval",
            |s, p| s.implies(Commitment, lists(p.from_mark), lists(p.marked)),
            Holds,
            Holds,
        ),
        stays(
            "follows, the name before D3",
            |s, p| s.follows(Commitment, lists(p.from_mark), plain(p.never), lists(p.two)),
            Broken(0, 0, 1, 2),
            Holds,
        ),
        stays(
            "follows, the name before D2",
            |s, p| s.follows(Commitment, lists(p.from_mark), lists(p.two), plain(p.two)),
            Holds,
            Broken(0, 0, 1, 2),
        ),
        stays(
            "triggers, the name after D3",
            |s, p| s.triggers(Commitment, lists(p.three_to_mark), plain(p.never), lists(p.two)),
            Broken(0, 0, 2, 1),
            Holds,
        ),
        stays(
            "triggers, a reply before the name",
            |s, p| s.triggers(Commitment, lists(p.three_to_mark), lists(p.unmarked), plain(p.two)),
            Holds,
            Broken(0, 0, 2, 1),
        ),
        // The order is D1, D3, D2: what D3 and D2 list lies in D3's interval.
        stays(
            "triggers, a name of D3 after D2",
            |s, p| s.triggers(Commitment, plain(p.point), lists(p.point), lists(p.three)),
            Holds,
            Broken(0, 0, 0, 2),
        ),
        stays(
            "follows, a name of D3 in every D2",
            |s, p| s.follows(Commitment, plain(p.point), lists(p.unmarked), lists(p.three)),
            Broken(0, 0, 0, 2),
            Broken(0, 0, 0, 2),
        ),
        // Another mark in D2's interval would not be the name's.
        stays(
            "follows, D2 looks for the mark of D1",
            |s, p| s.follows(Commitment, lists(p.from_mark), lists(p.marked), plain(p.two)),
            Broken(0, 0, 1, 2),
            Broken(0, 0, 1, 2),
        ),
    ]
}
