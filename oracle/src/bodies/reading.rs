//! What stands at the nodes of tables that keep the rules.

use super::case::Case;
use crate::sheets::draft::{Draft, FIRST, KIND};

const STRING: u32 = 1;
const NULL: u32 = 5;
const NAME: u32 = 6;
const SET: u32 = 8;
const OBJECT: u32 = 9;

/// A name that is met in an expression.
#[derive(Clone, Copy, Debug)]
pub struct Met {
    pub node: u32,
    pub name: u32,
    pub in_set: bool,
    pub in_key: bool,
}

/// The names at or below a node, `_` aside, as written: through arrays, sets and objects, a
/// field's key before its value.
pub fn names_in(case: &Case, node: u32) -> Vec<Met> {
    let mut names = Vec::new();
    meet(case, Met { node, name: 0, in_set: false, in_key: false }, &mut names);
    names
}

fn meet(case: &Case, at: Met, names: &mut Vec<Met>) {
    let words = words(case, at.node);
    if words[KIND] == NAME && !is_underscore(case, words[FIRST]) {
        names.push(Met { name: words[FIRST], ..at });
    }
    let children = case.draft.children.iter().skip(words[FIRST] as usize);
    for (place, &node) in children.take(Draft::width(words)).enumerate() {
        let in_set = at.in_set || words[KIND] == SET;
        let in_key = at.in_key || words[KIND] == OBJECT && place % 2 == 0;
        meet(case, Met { node, name: 0, in_set, in_key }, names);
    }
}

/// Whether an `_` stands at or below a node.
pub fn has_underscore(case: &Case, node: u32) -> bool {
    let words = words(case, node);
    let mut children = case.draft.children.iter().skip(words[FIRST] as usize);
    words[KIND] == NAME && is_underscore(case, words[FIRST])
        || children.by_ref().take(Draft::width(words)).any(|&node| has_underscore(case, node))
}

/// String, raw string, number, bool, null.
pub fn is_literal(case: &Case, node: u32) -> bool {
    (STRING..=NULL).contains(&words(case, node)[KIND])
}

/// The number of the name at a name's node.
pub fn name_at(case: &Case, node: u32) -> u32 {
    words(case, node)[FIRST]
}

fn words(case: &Case, node: u32) -> &[u32; 5] {
    &case.draft.nodes[node as usize - 1]
}

fn is_underscore(case: &Case, name: u32) -> bool {
    let [start, length, _] = case.draft.names[name as usize - 1];
    case.draft.text[start as usize..][..length as usize] == *b"_"
}
