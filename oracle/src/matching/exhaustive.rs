//! All small simple patterns on all small values.

use super::case::{Case, Origin};
use crate::generate::structures::lists;
use crate::sheets::draft::FIRST;
use crate::sheets::{encode, Operation, Rule, Tree};

/// Nodes, keys aside.
const SIZE: usize = 4;
const NAMES: [&str; 2] = ["x", "y"];

/// Every pattern of at most 4 nodes, keys aside, over x, y, `_`, 1 and "1" on every such value over
/// 1 and "1"; each name of the pattern unknown, or known with 1 or `[]`.
pub fn for_each_case(mut visit: impl FnMut(Case)) {
    let literals = [Tree::Number(1), Tree::string("1")];
    let names = NAMES.iter().chain(&["_"]).map(|name| Tree::name(name));
    let patterns = trees(&[&literals[..], &names.collect::<Vec<_>>()].concat(), SIZE);
    let values = trees(&literals, SIZE);
    for pattern in &patterns {
        for value in &values {
            with_lists(pattern, value, &mut visit);
        }
    }
}

/// Known names are marked 1, and listed in turn with each item of a third root.
fn with_lists(pattern: &Tree, value: &Tree, visit: &mut impl FnMut(Case)) {
    let listed = vec![Tree::Number(1), Tree::Array(Vec::new())];
    let choices = listed.len() + 1;
    let rule = Rule::two_sided(Operation::Pattern, pattern.clone(), value.clone());
    let draft = encode(&Rule { key: Some(Tree::Array(listed)), ..rule });
    let plain = Case { origin: Origin::Unrelated, ..Case::new(draft) };
    let first = plain.draft.nodes[plain.draft.roots[2] as usize - 1][FIRST] as usize;
    let numbers = NAMES.map(|name| plain.name_number(name.as_bytes()) as usize);
    let names: Vec<usize> = numbers.into_iter().filter(|&number| number > 0).collect();
    for turn in 0..choices.pow(names.len() as u32) {
        let mut case = plain.clone();
        for (place, name) in (0..).zip(&names) {
            let choice = turn / choices.pow(place) % choices;
            if choice > 0 {
                case.marks[name - 1] = 1;
                case.values[name - 1] = case.draft.children[first + choice - 1];
            }
        }
        visit(case);
    }
}

/// The trees over some leaves, with `[]`, `{}` and the keys "a" and 1, of at most so many nodes,
/// keys aside; smaller ones first.
pub(crate) fn trees(leaves: &[Tree], most: usize) -> Vec<Tree> {
    let mut sizes: Vec<Vec<Tree>> = vec![Vec::new()];
    for size in 1..=most {
        let mut trees = if size == 1 { leaves.to_vec() } else { Vec::new() };
        for items in lists(&sizes, size - 1) {
            trees.extend(objects(&items));
            trees.push(Tree::Array(items));
        }
        sizes.push(trees);
    }
    sizes.concat()
}

fn objects(values: &[Tree]) -> Vec<Tree> {
    let (a, one) = (Tree::string("a"), Tree::Number(1));
    let keys = match values.len() {
        0 => vec![Vec::new()],
        1 => vec![vec![a], vec![one]],
        2 => vec![vec![a.clone(), one.clone()], vec![one, a]],
        _ => Vec::new(),
    };
    let object = |keys: Vec<Tree>| Tree::Object(keys.into_iter().zip(values.to_vec()).collect());
    keys.into_iter().map(object).collect()
}

#[cfg(test)]
mod tests {
    use super::*;

    #[test]
    fn trees_are_all_different() {
        let trees = trees(&[Tree::Null], SIZE);
        assert!(trees.contains(&Tree::Array(vec![Tree::Array(Vec::new()), Tree::Null])));
        let texts: std::collections::BTreeSet<String> =
            trees.iter().map(|tree| format!("{tree:?}")).collect();
        assert_eq!(texts.len(), trees.len());
    }
}
