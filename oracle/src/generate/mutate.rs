//! Small changes of a tree.

use super::grow::grow;
use super::palette::Palette;
use super::random::Random;
use crate::sheets::Tree;

/// Changes one node of a tree, any of them as likely as another.
pub fn mutate(random: &mut Random, palette: &Palette, tree: &mut Tree) {
    let place = random.below(tree.size());
    change(random, palette, node_at(tree, place));
}

/// Changes the items or the fields of one node, where there is one that has some.
pub fn reshape(random: &mut Random, palette: &Palette, tree: &mut Tree) {
    let size = tree.size();
    let composite = (0..size).filter(|&place| node_at(tree, place).size() > 1);
    let composites: Vec<usize> = composite.collect();
    if !composites.is_empty() {
        let place = *random.pick(&composites);
        change_inside(random, palette, node_at(tree, place));
    }
}

/// The node that is met after `place` others.
fn node_at(tree: &mut Tree, mut place: usize) -> &mut Tree {
    if place == 0 {
        return tree;
    }
    place -= 1;
    let parts: Vec<&mut Tree> = match tree {
        Tree::Array(items) | Tree::Set(items) => items.iter_mut().collect(),
        Tree::Object(fields) => fields.iter_mut().flat_map(|(key, value)| [key, value]).collect(),
        _ => Vec::new(),
    };
    for part in parts {
        match place.checked_sub(part.size()) {
            None => return node_at(part, place),
            Some(left) => place = left,
        }
    }
    unreachable!("the tree has fewer nodes")
}

fn change(random: &mut Random, palette: &Palette, tree: &mut Tree) {
    match random.weighted(&[30, 40, 10, 10, 10]) {
        0 => *tree = grow(random, palette, 1),
        1 => change_inside(random, palette, tree),
        2 => *tree = palette.name(random),
        3 => *tree = Tree::Array(vec![tree.clone()]),
        _ => *tree = recast(random, tree),
    }
}

fn change_inside(random: &mut Random, palette: &Palette, tree: &mut Tree) {
    match tree {
        Tree::Array(items) | Tree::Set(items) => {
            if items.is_empty() || random.chance(50) {
                items.insert(random.below(items.len() + 1), grow(random, palette, 1));
            } else {
                items.remove(random.below(items.len()));
            }
        }
        Tree::Object(fields) => change_fields(random, palette, fields),
        leaf => *leaf = Palette::literal(random),
    }
}

fn change_fields(random: &mut Random, palette: &Palette, fields: &mut Vec<(Tree, Tree)>) {
    if fields.is_empty() || random.chance(25) {
        let field = (Palette::literal_key(random), grow(random, palette, 1));
        return fields.insert(random.below(fields.len() + 1), field);
    }
    let place = random.below(fields.len());
    match random.weighted(&[25, 25, 15, 20, 15]) {
        0 => drop(fields.remove(place)),
        1 => fields[place].0 = Palette::literal_key(random),
        2 => fields[place].0 = respelled(&fields[place].0),
        3 => fields[place].0 = fields[random.below(fields.len())].0.clone(),
        _ => fields.push((fields[place].0.clone(), grow(random, palette, 1))),
    }
}

/// A key of equal text, where there is one.
pub fn respelled(key: &Tree) -> Tree {
    match key {
        Tree::Number(number) => Tree::String(number.to_string()),
        Tree::Bool(value) => Tree::String(value.to_string()),
        Tree::Null => Tree::string("null"),
        Tree::String(text) => {
            let number = text.parse().ok().filter(|number: &i128| number.to_string() == *text);
            number.map_or_else(|| Tree::RawString(text.clone()), Tree::Number)
        }
        Tree::RawString(text) => Tree::String(text.clone()),
        other => other.clone(),
    }
}

/// Arrays as objects, objects as arrays, arrays as sets.
fn recast(random: &mut Random, tree: &Tree) -> Tree {
    match tree {
        Tree::Array(items) if random.chance(30) => Tree::Set(items.clone()),
        Tree::Array(items) | Tree::Set(items) => {
            let field = |item: &Tree| (Palette::literal_key(random), item.clone());
            Tree::Object(items.iter().map(field).collect())
        }
        Tree::Object(fields) => {
            Tree::Array(fields.iter().map(|(_, value)| value.clone()).collect())
        }
        leaf => Tree::Array(vec![leaf.clone()]),
    }
}
