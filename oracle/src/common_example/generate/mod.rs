//! The seeded generator: two patterns with their scopes and lists over one set of tables, and what
//! is lent for the value.

mod large;
mod related;

use super::case::Pair;
use super::reading::{overlap, size};
use crate::generate::{disguise::disguise, Random};
use crate::matching::case::Case;
use crate::matching::generate::faults::Fault;
use crate::matching::generate::{add_unused, list, Parts};
use crate::matching::reading::reached;
use crate::sheets::{encode, Draft, Operation, Rule, Tree};

const MOST_NODES: usize = 512;
/// Of nodes; a value that needs more is lent less.
const MOST_LENT: u64 = 600;

/// The pair of a number; a seed and a number give the same pair everywhere.
pub fn case(seed: u64, number: u64) -> Pair {
    let random = &mut Random::of_case(seed ^ 0x6578, number);
    let mut parts = match random.weighted(&[38, 15, 20, 9, 6, 6, 6]) {
        0 => related::instances(random),
        1 => related::twins(random),
        2 => related::equations(random),
        3 => large::chain(random),
        4 => large::doubling(random),
        5 => large::copies(random),
        _ => large::crowd(random),
    };
    let faults = if random.chance(15) { Fault::some(random) } else { Vec::new() };
    for fault in &faults {
        let place = random.below(2);
        fault.in_parts(random, &mut parts[place]);
    }
    let mut sides = laid_out(random, &parts);
    if faults.is_empty() && random.chance(8) {
        share_nodes(random, &mut sides);
    }
    for fault in &faults {
        let place = random.below(2);
        fault.in_case(random, &mut sides[place]);
        let draft = sides[place].draft.clone();
        let other = &mut sides[1 - place].draft;
        *other = Draft { roots: other.roots, ..draft };
    }
    lent(random, sides)
}

/// Both sides over the same tables. The listed values stand as items of an array, the third root:
/// those of the first side, then those of the second.
fn laid_out(random: &mut Random, parts: &[Parts; 2]) -> [Case; 2] {
    let mut draft = draft(parts);
    if random.chance(80) {
        disguise(random, &mut draft);
    }
    let before = [0, parts[0].listed.iter().flatten().count()];
    [0, 1].map(|place| {
        let own = &parts[place];
        let roots = [draft.roots[place], 0, draft.roots[2]];
        let mut case = Case::new(Draft { roots, ..draft.clone() });
        case.marks = marks(own, &case);
        case.scheduler = own.scheduler.into();
        case.scoping = 1 + u32::from(own.shadowing) + if random.chance(25) { 2 } else { 0 };
        list(random, own, before[place], &mut case);
        add_unused(random, &mut case);
        case
    })
}

fn draft(parts: &[Parts; 2]) -> Draft {
    let [one, other] = parts;
    let listed = parts.iter().flat_map(|own| own.listed.iter().flatten());
    let spare = parts.iter().flat_map(|own| &own.spare);
    let mut scope = one.scope.clone();
    let is_new = |(name, _): &&(String, u32)| one.scope.iter().all(|(own, _)| own != name);
    scope.extend(other.scope.iter().filter(is_new).cloned());
    encode(&Rule {
        key: Some(Tree::Array(listed.chain(spare).cloned().collect())),
        scope,
        ..Rule::two_sided(Operation::Pattern, one.pattern.clone(), other.pattern.clone())
    })
}

/// The marks of a side's scope, by name number; a name that it doesn't have has none.
fn marks(parts: &Parts, case: &Case) -> Vec<u8> {
    let mut marks = vec![0; case.draft.names.len()];
    for (name, own) in &parts.scope {
        marks[case.name_number(name.as_bytes()) as usize - 1] = *own as u8;
    }
    marks
}

/// Both patterns are one node, or the second is a part of the first.
fn share_nodes(random: &mut Random, sides: &mut [Case; 2]) {
    let root = sides[0].pattern();
    let part = *random.pick(&reached(&sides[0], root));
    sides[1].draft.roots[0] = if random.chance(70) { root } else { part };
}

fn lent(random: &mut Random, sides: [Case; 2]) -> Pair {
    let mut pair = Pair { sides, node_room: 0, child_room: 0, answer_room: 4 };
    let needed = overlap(&pair).ok().map(|overlap| size(&overlap).nodes.min(MOST_LENT) as usize);
    let nodes = needed.unwrap_or_else(|| 1 + random.below(20));
    if needed.is_some() && random.chance(4) {
        fill_up(random, &mut pair.sides, nodes);
    }
    pair.node_room = room(random, 5 * nodes);
    pair.child_room = room(random, nodes - 1);
    if random.chance(50) {
        pair.answer_room = random.below(7);
    }
    pair
}

/// Nodes that nothing uses, so that tables and value together have about as many as the limit.
fn fill_up(random: &mut Random, sides: &mut [Case; 2], nodes: usize) {
    let together = MOST_NODES - 1 + random.below(3);
    for case in sides {
        let length = together.saturating_sub(nodes).max(case.draft.nodes.len());
        case.draft.nodes.resize(length, [5, 0, 0, 0, 0]);
    }
}

/// So many words as are needed, or more, or fewer.
fn room(random: &mut Random, needed: usize) -> usize {
    match random.weighted(&[55, 20, 8, 8, 3, 6]) {
        0 => needed,
        1 => needed + 1 + random.below(12),
        2 => needed + random.below(600),
        3 => needed.saturating_sub(1 + random.below(5)),
        4 => 0,
        _ => random.below(needed + 1),
    }
}
