//! A run with tolerance that is asked for, and the nodes that are measured.

use crate::matching::case::Case;
use crate::matching::reading::{is_node, reached};
use crate::sheets::draft::KIND;
use std::collections::BTreeSet;

const NUMBER: u32 = 3;
const OBJECT: u32 = 9;

#[derive(Clone, Debug)]
pub struct Measured {
    pub case: Case,
    /// Two words a node: 1 for below zero or 0, then the size.
    pub lowest: Vec<u64>,
    pub highest: Vec<u64>,
    /// Ranges of few numbers, so that every choice can be tried.
    pub small: bool,
}

/// The two words of a number.
pub fn words(number: i128) -> [u64; 2] {
    [u64::from(number < 0), number.unsigned_abs() as u64]
}

/// Document 02, slip 2: a sign and a size, from -2^63, without minus zero.
fn number(words: &[u64]) -> Option<i128> {
    match *words {
        [0, size] => Some(size.into()),
        [1, size] if (1..=1 << 63).contains(&size) => Some(-i128::from(size)),
        _ => None,
    }
}

impl Measured {
    /// A node's range, if its ends are numbers in order.
    pub fn range(&self, node: u32) -> Option<(i128, i128)> {
        let place = 2 * (node as usize - 1);
        let end = |list: &[u64]| list.get(place..place + 2).and_then(number);
        end(&self.lowest).zip(end(&self.highest)).filter(|(lowest, highest)| lowest <= highest)
    }

    /// Both lists have two words for each node, and each measured one has a range.
    pub fn has_ranges(&self) -> bool {
        let long = |list: &[u64]| list.len() / 2 >= self.case.draft.nodes.len();
        let measured = measured_nodes(&self.case);
        long(&self.lowest)
            && long(&self.highest)
            && measured.iter().all(|&node| self.range(node).is_some())
    }
}

pub fn kind(case: &Case, node: u32) -> u32 {
    case.draft.nodes[node as usize - 1][KIND]
}

/// The value, and the listed nodes of known names; `_` is not counted as known.
pub fn value_roots(case: &Case) -> Vec<u32> {
    let names = 1..=case.draft.names.len() as u32;
    let known = names.filter(|&name| !case.is_unbound(name) && !case.is_named(name, b"_"));
    let listed = known.map(|name| case.values[name as usize - 1]).filter(|&node| node != 0);
    std::iter::once(case.value()).chain(listed).collect()
}

/// The number nodes of the value or of a known name's value, object keys aside. Of a case that
/// nothing up to 23 refuses.
pub fn measured_nodes(case: &Case) -> BTreeSet<u32> {
    let reached = value_roots(case).into_iter().flat_map(|root| reached(case, root));
    reached.filter(|&node| kind(case, node) == NUMBER).collect()
}

/// The nodes at and below one, keys too.
pub fn below(case: &Case, node: u32) -> BTreeSet<u32> {
    let inside = reached(case, node);
    let keys: Vec<u32> = inside.iter().flat_map(|&node| keys(case, node)).collect();
    inside.into_iter().chain(keys).collect()
}

/// The keys of an object, which are literals.
pub fn keys(case: &Case, node: u32) -> Vec<u32> {
    let words = &case.draft.nodes[node as usize - 1];
    let fields = if words[KIND] == OBJECT { words[4] as usize } else { 0 };
    let first = words[3] as usize;
    (0..fields).map(|field| case.draft.children[first + 2 * field]).collect()
}

/// The measured nodes that are object keys too, elsewhere in a value or in the pattern.
pub fn measured_keys(case: &Case) -> BTreeSet<u32> {
    let nodes = 1..=case.draft.nodes.len() as u32;
    let keys: BTreeSet<u32> = nodes.flat_map(|node| keys(case, node)).collect();
    measured_nodes(case).intersection(&keys).copied().collect()
}

/// The number nodes among the keys of a case's values.
pub fn number_keys(case: &Case) -> Vec<u32> {
    let roots = value_roots(case).into_iter().filter(|&root| is_node(case, root));
    let inside = roots.flat_map(|root| reached(case, root));
    let keys = inside.flat_map(|node| keys(case, node));
    keys.filter(|&key| kind(case, key) == NUMBER).collect()
}
