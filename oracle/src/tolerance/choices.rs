//! Every choice of small ranges, each run by itself.

use super::case::{below, measured_keys, measured_nodes, Measured};
use super::entry::{ALWAYS, NEVER, SOMETIMES};
use super::reading::{Expected, Judged};
use crate::matching::case::Case;
use crate::matching::entry::Run;
use crate::matching::expected::alone;
use crate::sheets::draft::FIRST;
use std::collections::BTreeSet;

const MOST_CHOICES: i128 = 100;
const MOST_NUMBERS: usize = 256;

/// What a run told, its list and its plan buffer.
type Told = ([u32; 4], Vec<u32>, Vec<u32>);

/// What the choices say; none where they are too many, or can't be made by other numbers in the
/// tables: a measured node that is a key or stands in the pattern would change there too.
pub fn by_choices(asked: &Measured, run: Run) -> Option<Expected> {
    let own = told(&asked.case, run);
    if ![0, 100, 6].contains(&own.0[0]) {
        return Some(Expected::Refused(own.0));
    }
    if !asked.has_ranges() {
        return Some(Expected::Refused(alone(32)));
    }
    if own.0[0] == 6 {
        return Some(Expected::Refused(own.0));
    }
    let nodes: Vec<u32> = changeable(&asked.case)?.into_iter().collect();
    let ranges = nodes.iter().map(|&node| asked.range(node).expect("it is measured"));
    let ranges: Vec<(i128, i128)> = ranges.collect();
    let choices = ranges.iter().map(|(low, high)| high - low + 1);
    if choices.clone().any(|choices| choices > MOST_CHOICES)
        || choices.product::<i128>() > MOST_CHOICES
    {
        return None;
    }
    let mut case = with_own_numbers(&asked.case, &nodes)?;
    let first = case.draft.numbers.len() - nodes.len();
    let mut choice: Vec<i128> = ranges.iter().map(|(lowest, _)| *lowest).collect();
    let mut all = Vec::new();
    loop {
        case.draft.numbers[first..].copy_from_slice(&choice);
        all.push(told(&case, run));
        if !advance(&mut choice, &ranges) {
            return Some(joined(&asked.case, all));
        }
    }
}

/// The measured nodes, where each has that role alone.
fn changeable(case: &Case) -> Option<BTreeSet<u32>> {
    let nodes = measured_nodes(case);
    let pattern = below(case, case.pattern());
    (measured_keys(case).is_empty() && nodes.is_disjoint(&pattern)).then_some(nodes)
}

/// Each of these nodes with a place of its own in the number list, the last ones.
fn with_own_numbers(case: &Case, nodes: &[u32]) -> Option<Case> {
    let mut case = case.clone();
    for &node in nodes {
        case.draft.nodes[node as usize - 1][FIRST] = case.draft.numbers.len() as u32;
        case.draft.numbers.push(0);
    }
    (case.draft.numbers.len() <= MOST_NUMBERS).then_some(case)
}

fn advance(choice: &mut [i128], ranges: &[(i128, i128)]) -> bool {
    for (number, &(lowest, highest)) in choice.iter_mut().zip(ranges) {
        if *number < highest {
            *number += 1;
            return true;
        }
        *number = lowest;
    }
    false
}

fn told(case: &Case, run: Run) -> Told {
    let (mut values, mut plan, mut answer) = (case.values.clone(), vec![0; case.room], [0; 4]);
    run(case, &mut values, &mut plan, &mut answer);
    (answer, values, plan)
}

/// All match, some do, none does; a list that changed is the same after each.
fn joined(case: &Case, all: Vec<Told>) -> Expected {
    let matching = all.iter().filter(|(answer, ..)| answer[0] == 0).count();
    let number = match matching {
        0 => NEVER,
        some if some < all.len() => SOMETIMES,
        _ => ALWAYS,
    };
    let (_, list, plan) = all[0].clone();
    assert!(all.iter().all(|told| told.2 == plan), "a choice changes no plan");
    assert!(number != ALWAYS || all.iter().all(|told| told.1 == list), "nor what a name holds");
    let values = if number == ALWAYS { list } else { case.values.clone() };
    Expected::Judged(Judged { number, plan, values })
}
