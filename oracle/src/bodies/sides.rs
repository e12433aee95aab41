//! The value sides of a planned line and its plan's computed keys, as document 02 lists them.

use super::case::Case;
use super::plan::{Line, Plan};
use super::reading::{is_literal, name_at};
use crate::answer::Entry;

/// An expression that is searched for names that are not ready.
#[derive(Debug)]
pub struct Side {
    /// What it is, as the tally has it.
    pub sort: &'static str,
    pub node: u32,
    /// The names that earlier pairs bind.
    pub earlier: Vec<u32>,
}

/// Value sides, then computed keys, in plan order.
pub fn sides(case: &Case, line: Line, plan: &Plan) -> Vec<Side> {
    let parts = parts(&plan.entries);
    let mut sides = value_sides(case, line, plan, &parts);
    let mut earlier = Vec::new();
    for (place, part) in parts.iter().enumerate() {
        let sort = key_sort(line, plan, place);
        let computed = part.keys().into_iter().filter(|&key| !is_literal(case, key));
        sides.extend(computed.map(|node| Side { sort, node, earlier: earlier.clone() }));
        if part.entry.kind == PAIR {
            earlier.extend(part.bound(case));
        }
    }
    sides
}

fn value_sides(case: &Case, line: Line, plan: &Plan, parts: &[Part]) -> Vec<Side> {
    let side = |sort, node| Side { sort, node, earlier: Vec::new() };
    let Line { operation, first, second, .. } = line;
    match (operation, plan.form, plan.side) {
        (2, ..) => vec![side("right of :=", second)],
        (4, ..) => vec![side("collection", second)],
        (3, 2, _) => vec![side("bind left's value", second)],
        (3, 3, _) => vec![side("bind right's value", first)],
        (3, 4, _) => pair_sides(case, parts),
        (3, 5, _) => vec![side("equality's left", first), side("equality's right", second)],
        (3, 6, 1) => vec![side("other than left _", second)],
        (3, 6, 2) => vec![side("other than right _", first)],
        _ => Vec::new(),
    }
}

fn pair_sides(case: &Case, parts: &[Part]) -> Vec<Side> {
    let mut earlier = Vec::new();
    let mut sides = Vec::new();
    for pair in parts {
        sides.push(Side { sort: "pair", node: pair.entry.node, earlier: earlier.clone() });
        earlier.extend(pair.bound(case));
    }
    sides
}

/// A some-in key's plan stands before the value's.
fn key_sort(line: Line, plan: &Plan, place: usize) -> &'static str {
    match (line.operation, plan.form) {
        (2, _) => "computed key, :=",
        (3, 4) => "computed key, pair",
        (3, _) => "computed key, =",
        (4, 1) if place == 0 => "computed key, some-in key",
        (4, _) => "computed key, some-in",
        _ => "computed key, index",
    }
}

const BIND: u32 = 1;
const PAIR: u32 = 7;

/// The names that a plan's bind entries bind.
pub fn bound(case: &Case, plan: &Plan) -> Vec<u32> {
    parts(&plan.entries).iter().flat_map(|part| part.bound(case)).collect()
}

/// An entry with those below it.
struct Part {
    entry: Entry,
    below: Vec<Part>,
}

/// Parents come first, each child followed by its own children before the next child.
fn parts(entries: &[Entry]) -> Vec<Part> {
    let mut rest = entries.iter();
    let mut parts = Vec::new();
    while let Some(entry) = rest.next() {
        parts.push(part(*entry, &mut rest));
    }
    parts
}

fn part<'a>(entry: Entry, rest: &mut impl Iterator<Item = &'a Entry>) -> Part {
    let mut below = Vec::new();
    for _ in 0..entry.children {
        let child = *rest.next().expect("as many entries as an entry's children");
        below.push(part(child, rest));
    }
    Part { entry, below }
}

impl Part {
    fn bound(&self, case: &Case) -> Vec<u32> {
        let own = (self.entry.kind == BIND).then(|| name_at(case, self.entry.node));
        own.into_iter().chain(self.below.iter().flat_map(|part| part.bound(case))).collect()
    }

    /// The key nodes of the entries, in plan order.
    fn keys(&self) -> Vec<u32> {
        let own = Some(self.entry.key).filter(|&key| key != 0);
        own.into_iter().chain(self.below.iter().flat_map(Self::keys)).collect()
    }
}
