//! The seeded generator: a run as for `match`, with a range for each node.

use super::case::{number_keys, words, Measured};
use crate::generate::Random;
use crate::matching::case::{Case, Origin};
use crate::matching::generate;
use crate::sheets::draft::{FIRST, KIND};

const LOWEST: i128 = -(1 << 63);
const HIGHEST: i128 = (1 << 64) - 1;
const EDGES: [i128; 11] =
    [LOWEST, LOWEST + 1, -5, -1, 0, 1, 2, (1 << 63) - 1, 1 << 63, HIGHEST - 1, HIGHEST];
/// Words that are no number: a sign of 2, minus zero, below the lowest.
const NO_NUMBERS: [[u64; 2]; 3] = [[2, 5], [1, 0], [1, (1 << 63) + 1]];

/// The case of a number; a seed and a number give the same case everywhere.
pub fn case(seed: u64, number: u64) -> Measured {
    let random = &mut Random::of_case(seed ^ 0x7074, number);
    let mut case = generate::case(seed, number);
    if case.origin != Origin::Faulty && random.chance(15) {
        list_a_key(random, &mut case);
    }
    let mut asked =
        Measured { case, lowest: Vec::new(), highest: Vec::new(), small: random.chance(60) };
    (0..asked.case.draft.nodes.len()).for_each(|place| add_range(random, &mut asked, place));
    if random.chance(6) {
        spoil(random, &mut asked);
    }
    asked
}

/// A known name gets a key of the values for its own value, if there is such a number.
fn list_a_key(random: &mut Random, case: &mut Case) {
    let names = 1..=case.draft.names.len() as u32;
    let known: Vec<u32> = names.filter(|&name| !case.is_unbound(name)).collect();
    let keys = number_keys(case);
    if !known.is_empty() && !keys.is_empty() {
        case.values[*random.pick(&known) as usize - 1] = *random.pick(&keys);
    }
}

/// Mostly the node's own number at both ends; a node that is no number has words that are none.
fn add_range(random: &mut Random, asked: &mut Measured, place: usize) {
    let words_of = &asked.case.draft.nodes[place];
    let own =
        asked.case.draft.numbers.get(words_of[FIRST] as usize).filter(|_| words_of[KIND] == 3);
    let [lowest, highest] = match own {
        None => [*random.pick(&NO_NUMBERS), [9, 9]],
        Some(&own) if asked.small => small_range(random, own).map(words),
        Some(&own) => wide_range(random, own).map(words),
    };
    asked.lowest.extend(lowest);
    asked.highest.extend(highest);
}

fn small_range(random: &mut Random, own: i128) -> [i128; 2] {
    let [below, above] = match random.weighted(&[55, 15, 15, 10, 5]) {
        0 => [0, 0],
        1 => [1, 0],
        2 => [0, 1],
        3 => [1, 1],
        _ => [-1, 2],
    };
    let [lowest, highest] = [own - below, own + above].map(|end| end.clamp(LOWEST, HIGHEST));
    [lowest.min(highest), highest]
}

fn wide_range(random: &mut Random, own: i128) -> [i128; 2] {
    let mut end = || match random.weighted(&[60, 10, 10, 20]) {
        0 => own,
        1 => (own - 1).max(LOWEST),
        2 => (own + 1).min(HIGHEST),
        _ => *random.pick(&EDGES),
    };
    let ends = [end(), end()];
    [ends[0].min(ends[1]), ends[0].max(ends[1])]
}

/// A list that is short or has more words than it needs, or a node whose ends are no range.
fn spoil(random: &mut Random, asked: &mut Measured) {
    let nodes = asked.case.draft.nodes.len();
    let list = if random.chance(50) { &mut asked.lowest } else { &mut asked.highest };
    match random.below(4) {
        0 => list.truncate(list.len().saturating_sub(1 + random.below(4))),
        1 => list.extend([7, 7, 7].iter().take(1 + random.below(3))),
        _ if nodes == 0 => {}
        2 => {
            let place = 2 * random.below(nodes);
            let no_number: [u64; 2] = *random.pick(&NO_NUMBERS);
            list[place..place + 2].copy_from_slice(&no_number);
        }
        _ => {
            let place = 2 * random.below(nodes);
            asked.lowest[place..place + 2].copy_from_slice(&words(3));
            asked.highest[place..place + 2].copy_from_slice(&words(*random.pick(&[2, 3, -3])));
        }
    }
}
