//! The seeded generator of runs: a small simple pattern, a value made from it, a scope and a list.

pub(crate) mod faults;
pub(crate) mod trees;

use super::case::{is_unbound, Case, Origin};
use super::reading::value_at;
use super::value::equal;
use crate::answer::ENTRY_WORDS;
use crate::generate::{disguise::disguise, Random};
use crate::sheets::draft::FIRST;
use crate::sheets::{encode, Draft, Operation, Rule, Tree};
use faults::Fault;
use trees::Filler;

const NAMES: [&str; 6] = ["x", "y", "z", "w", "_x", "é"];
const KNOWN_MARKS: [u32; 5] = [1, 3, 16, 17, 19];
const UNBOUND_MARKS: [u32; 6] = [0, 0, 0, 2, 4, 5];

/// More choices of values than these for names and underscores are not tried.
const MOST_CHOICES: usize = 20_000;

/// A case before it is laid out in tables.
pub(crate) struct Parts {
    pub pattern: Tree,
    pub value: Tree,
    /// Names with their marks, `_` among them at times.
    pub scope: Vec<(String, u32)>,
    /// A value for each name of the scope, where it is listed.
    pub listed: Vec<Option<Tree>>,
    /// Trees that nothing uses.
    pub spare: Vec<Tree>,
    pub scheduler: bool,
    pub shadowing: bool,
}

impl Parts {
    /// Of a pattern whose names have these values; known ones are mostly listed with them.
    pub fn new(
        random: &mut Random,
        pattern: Tree,
        scope: Vec<(String, u32)>,
        values: &[Tree],
    ) -> Self {
        let (scheduler, shadowing) = (random.chance(30), random.chance(25));
        let unbound = scope.iter().map(|(_, marks)| is_unbound(*marks, scheduler, shadowing));
        let listed = unbound.zip(values).map(|(unbound, value)| listed(random, unbound, value));
        let (listed, value) = (listed.collect(), Tree::Null);
        Self { pattern, value, scope, listed, spare: Vec::new(), scheduler, shadowing }
    }
}

/// The case of a number; a seed and a number give the same case everywhere. Scoping 3 and 4 stand
/// for 1 and 2 in a quarter of them, which is all the same to a run.
pub fn case(seed: u64, number: u64) -> Case {
    let mut case = drawn(seed, number);
    if (1..=2).contains(&case.scoping) && Random::of_case(!seed, number).chance(25) {
        case.scoping += 2;
    }
    case
}

fn drawn(seed: u64, number: u64) -> Case {
    let random = &mut Random::of_case(seed, number);
    loop {
        let origin = match random.weighted(&[50, 15, 15, 5, 15]) {
            0 => Origin::Filled,
            1 => Origin::Differing,
            2 => Origin::Changed,
            3 => Origin::Unrelated,
            _ => Origin::Faulty,
        };
        let parts = parts(random, origin);
        if choices(&parts) <= MOST_CHOICES {
            return laid_out(random, origin, parts);
        }
    }
}

/// How many ways there are to fill the pattern with parts of the value.
fn choices(parts: &Parts) -> usize {
    let (names, underscores) = trees::names(&parts.pattern);
    let unknown = parts.scope.iter().filter(|(name, marks)| {
        names.contains(name) && is_unbound(*marks, parts.scheduler, parts.shadowing)
    });
    let blanks = (unknown.count() + underscores) as u32;
    (parts.value.size() + 1).saturating_pow(blanks)
}

pub(crate) fn parts(random: &mut Random, origin: Origin) -> Parts {
    let scope = scope(random);
    let pattern = trees::pattern(random, &scope, 3);
    let values: Vec<Tree> = scope.iter().map(|_| trees::value(random, 1)).collect();
    let mut filler = Filler::new(random, &scope, &values);
    if origin == Origin::Differing {
        filler.fill_one_differently(&pattern);
    }
    let mut value = filler.fill(&pattern);
    match origin {
        Origin::Changed => trees::change(random, &mut value),
        Origin::Unrelated => value = trees::value(random, 3),
        _ => {}
    }
    Parts { value, ..Parts::new(random, pattern, scope, &values) }
}

pub(crate) fn scope(random: &mut Random) -> Vec<(String, u32)> {
    let mut names = NAMES;
    random.shuffle(&mut names);
    let count = 1 + random.below(3);
    let mut scope: Vec<_> =
        names[..count].iter().map(|name| (name.to_string(), marks(random))).collect();
    if random.chance(30) {
        scope.push(("_".into(), marks(random)));
    }
    scope
}

fn marks(random: &mut Random) -> u32 {
    match random.weighted(&[40, 40, 20]) {
        0 => *random.pick(&UNBOUND_MARKS),
        1 => *random.pick(&KNOWN_MARKS),
        _ => random.below(32) as u32,
    }
}

/// A known name is mostly listed with the value that the pattern was filled with.
fn listed(random: &mut Random, unbound: bool, value: &Tree) -> Option<Tree> {
    let weights = if unbound { [60, 20, 20] } else { [0, 95, 5] };
    match random.weighted(&weights) {
        0 => None,
        1 => Some(trees::respelled(random, value)),
        _ => Some(trees::value(random, 1)),
    }
}

fn laid_out(random: &mut Random, origin: Origin, mut parts: Parts) -> Case {
    let faults = if origin == Origin::Faulty { Fault::some(random) } else { Vec::new() };
    faults.iter().for_each(|fault| fault.in_parts(random, &mut parts));
    let mut draft = draft(&parts);
    if random.chance(80) {
        disguise(random, &mut draft);
    }
    let mut case = Case { origin, ..Case::new(draft) };
    case.room =
        ENTRY_WORDS * trees::entries(&parts.pattern) + random.weighted(&[30, 10, 10, 10, 20, 20]);
    if random.chance(50) {
        case.answer_room = random.below(7);
    }
    list(random, &parts, 0, &mut case);
    add_unused(random, &mut case);
    faults.iter().for_each(|fault| fault.in_case(random, &mut case));
    case
}

/// The listed values stand as items of an array, the third root.
fn draft(parts: &Parts) -> Draft {
    let listed = parts.listed.iter().flatten().chain(&parts.spare).cloned().collect();
    encode(&Rule {
        key: Some(Tree::Array(listed)),
        scheduler: parts.scheduler,
        shadowing: parts.shadowing,
        scope: parts.scope.clone(),
        ..Rule::two_sided(Operation::Pattern, parts.pattern.clone(), parts.value.clone())
    })
}

/// Lists the values, which stand in the third root behind so many others; sometimes by any node that
/// has an equal one.
pub(crate) fn list(random: &mut Random, parts: &Parts, before: usize, case: &mut Case) {
    let first = case.draft.nodes[case.draft.roots[2] as usize - 1][FIRST] as usize + before;
    let listed = parts.scope.iter().zip(&parts.listed).filter(|(_, value)| value.is_some());
    for (place, ((name, _), _)) in (first..).zip(listed) {
        let node = case.draft.children[place];
        let number = case.name_number(name.as_bytes()) as usize;
        case.values[number - 1] =
            if random.chance(30) { any_equal(random, case, node) } else { node };
    }
}

fn any_equal(random: &mut Random, case: &Case, node: u32) -> u32 {
    let Some(value) = value_at(case, node) else { return node };
    let is_equal = |&other: &u32| value_at(case, other).is_some_and(|other| equal(&value, &other));
    let nodes: Vec<u32> = (1..=case.draft.nodes.len() as u32).filter(is_equal).collect();
    *random.pick(&nodes)
}

/// List words past the names, marks past the names and past 128.
pub(crate) fn add_unused(random: &mut Random, case: &mut Case) {
    for _ in 0..random.weighted(&[50, 20, 20, 10]) {
        case.values.push(*random.pick(&[0, 1, 999_999, u32::MAX]));
    }
    if random.chance(20) {
        case.marks.resize(128, 0);
        case.marks.extend([255, 1]);
    }
}

#[cfg(test)]
mod tests {
    use super::super::expected::{expected, Expected};
    use super::*;
    use std::collections::BTreeMap;

    #[test]
    fn a_number_is_always_the_same_case() {
        let text = |seed| format!("{:?}", case(seed, 5));
        assert_eq!(text(1), text(1));
        assert_ne!(text(1), text(2));
    }

    #[test]
    fn a_filled_pattern_mostly_matches_and_every_answer_comes_up() {
        let mut counts: BTreeMap<(Origin, u32), u32> = BTreeMap::new();
        for number in 0..20_000 {
            let case = case(1, number);
            let answer = match expected(&case) {
                Expected::Refused([number, ..]) => number,
                Expected::Ran(ran) if ran.fillings.is_empty() => 100,
                Expected::Ran(_) => 0,
            };
            *counts.entry((case.origin, answer)).or_default() += 1;
        }
        let count = |origin, answer| counts.get(&(origin, answer)).copied().unwrap_or(0);
        assert!(count(Origin::Filled, 0) > 5 * count(Origin::Filled, 100));
        assert!(count(Origin::Differing, 100) > 500 && count(Origin::Changed, 100) > 500);
        let answers = [0, 100, 1, 2, 3, 4, 5, 6, 7, 20, 21, 22, 23];
        assert!(answers.iter().all(|&answer| count(Origin::Faulty, answer) > 0), "{counts:?}");
        assert!(counts.keys().all(|(_, answer)| answers.contains(answer)));
    }
}
