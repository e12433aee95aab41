//! All small structures: patterns over `_` and values over 1, with `[]`, `{}` and the keys 1, "1"
//! and the name k, held against each other in both readings. Sizes are in nodes, keys aside.

use crate::sheets::{Operation, Rule, Tree};

const PATTERN_SIZE: usize = 3;
const VALUE_SIZE: usize = 4;

/// Every pattern of at most 3 nodes with every value of at most 4, and every two objects of two
/// fields, of one node each in the pattern and of two in the value.
pub fn for_each_rule(mut visit: impl FnMut(&Rule)) {
    let (patterns, values) = (by_size(Tree::name("_")), by_size(Tree::Number(1)));
    for pattern in patterns[..=PATTERN_SIZE].iter().flatten() {
        for value in values[..=VALUE_SIZE].iter().flatten() {
            rules(pattern, value).iter().for_each(&mut visit);
        }
    }
    let (ones, others) = (two_fields(&patterns[1]), two_fields(&values[2]));
    for pattern in &ones {
        for value in &others {
            let rule = some_in(pattern, value);
            visit(&Rule { careful: true, ..rule.clone() });
            visit(&rule);
        }
    }
}

/// Beside each assigned pattern stands an underscore, so that it binds.
fn rules(pattern: &Tree, value: &Tree) -> [Rule; 5] {
    let left = Tree::Array(vec![pattern.clone(), Tree::name("_")]);
    let right = Tree::Array(vec![value.clone(), Tree::Number(1)]);
    let careful = |rule| Rule { careful: true, ..rule };
    let assigned = Rule::two_sided(Operation::ColonEquals, left.clone(), right.clone());
    [
        assigned.clone(),
        careful(assigned),
        careful(Rule::two_sided(Operation::Equals, left.clone(), right.clone())),
        careful(Rule::two_sided(Operation::Equals, right, left)),
        careful(some_in(pattern, value)),
    ]
}

fn some_in(pattern: &Tree, item: &Tree) -> Rule {
    Rule::two_sided(Operation::SomeIn, pattern.clone(), Tree::Array(vec![item.clone()]))
}

/// The trees over a leaf, by their size up to that of values.
fn by_size(leaf: Tree) -> Vec<Vec<Tree>> {
    let mut sizes: Vec<Vec<Tree>> = vec![Vec::new()];
    for size in 1..=VALUE_SIZE {
        let mut trees = if size == 1 { vec![leaf.clone()] } else { Vec::new() };
        for items in lists(&sizes, size - 1) {
            trees.extend(objects(&items));
            trees.push(Tree::Array(items));
        }
        sizes.push(trees);
    }
    sizes
}

/// The lists of trees that have `size` nodes together.
pub(crate) fn lists(sizes: &[Vec<Tree>], size: usize) -> Vec<Vec<Tree>> {
    if size == 0 {
        return vec![Vec::new()];
    }
    let mut all = Vec::new();
    for first in 1..=size {
        let rests = lists(sizes, size - first);
        for tree in &sizes[first] {
            all.extend(rests.iter().map(|rest| [std::slice::from_ref(tree), rest].concat()));
        }
    }
    all
}

/// The objects of some values, under all keys.
fn objects(values: &[Tree]) -> Vec<Tree> {
    let keys = [Tree::Number(1), Tree::string("1"), Tree::name("k")];
    let mut fields = vec![Vec::new()];
    for value in values {
        let under_each = |fields: Vec<(Tree, Tree)>| {
            let under = |key: &Tree| [&fields[..], &[(key.clone(), value.clone())]].concat();
            keys.iter().map(under).collect::<Vec<_>>()
        };
        fields = fields.into_iter().flat_map(under_each).collect();
    }
    fields.into_iter().map(Tree::Object).collect()
}

fn two_fields(values: &[Tree]) -> Vec<Tree> {
    let with_each = |one: &Tree| {
        let pair = |other: &Tree| objects(&[one.clone(), other.clone()]);
        values.iter().flat_map(pair).collect::<Vec<_>>()
    };
    values.iter().flat_map(with_each).collect()
}
