//! Sheets at the limits of document 01, and one past.

use super::draft::Draft;
use super::encode::encode;
use super::tree::{Operation, Rule, Tree};

fn pattern(tree: Tree) -> Draft {
    encode(&Rule::new(Operation::Pattern, tree))
}

pub fn nodes(count: usize) -> Draft {
    pattern(Tree::Array(vec![Tree::Null; count - 1]))
}

/// On 512 nodes; entries that no array uses are the root's own number, so one of them is sound.
pub fn children(count: usize) -> Draft {
    let mut draft = nodes(512);
    draft.children.resize(count, 512);
    draft
}

pub fn numbers(count: usize) -> Draft {
    pattern(Tree::Array((0..count as i128).map(Tree::Number).collect()))
}

pub fn names(count: usize) -> Draft {
    pattern(Tree::Array((0..count).map(|number| Tree::Name(format!("n{number:03}"))).collect()))
}

pub fn name_bytes(length: usize) -> Draft {
    pattern(Tree::Name("x".repeat(length)))
}

pub fn string_bytes(length: usize) -> Draft {
    let mut draft = pattern(Tree::string(""));
    draft.strings = vec![b's'; length];
    draft.nodes[0][super::draft::COUNT] = length as u32;
    draft
}

pub fn text_bytes(length: usize) -> Draft {
    let mut draft = pattern(Tree::name("x"));
    draft.text.resize(length, b' ');
    draft
}

/// Arrays in one another, so that the root has this depth.
pub fn depth(depth: usize) -> Draft {
    pattern((1..depth).fold(Tree::name("x"), |inner, _| Tree::Array(vec![inner])))
}

/// `{"a": [_, ..], "b": 1, ..} = {"a": true, .., "b": y}`: the array is paired with each true, so the
/// plan has `times * (wildcards + 2) + 2` entries.
pub fn pairs(times: usize, wildcards: usize) -> Draft {
    let field = |key: &str, value| (Tree::string(key), value);
    let mut left = vec![field("a", Tree::Array(vec![Tree::name("_"); wildcards]))];
    left.push(field("b", Tree::Number(1)));
    left.extend((1..times).map(|key| (Tree::Number(key as i128), Tree::Null)));
    let mut right = vec![field("a", Tree::Bool(true)); times];
    right.push(field("b", Tree::name("y")));
    encode(&Rule::two_sided(Operation::Equals, Tree::Object(left), Tree::Object(right)))
}
