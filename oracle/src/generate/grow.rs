//! Random patterns, and right sides that nearly agree with a left one.

use super::palette::Palette;
use super::random::Random;
use crate::sheets::Tree;

pub fn grow(random: &mut Random, palette: &Palette, depth: usize) -> Tree {
    if depth == 0 || random.chance(30) {
        return leaf(random, palette);
    }
    let count = random.weighted(&[8, 30, 35, 20, 7]);
    match random.weighted(&[50, 40, 10]) {
        0 => Tree::Array(items(random, palette, depth, count)),
        1 => Tree::Object((0..count).map(|_| field(random, palette, depth)).collect()),
        _ => Tree::Set(items(random, palette, depth, count)),
    }
}

fn items(random: &mut Random, palette: &Palette, depth: usize, count: usize) -> Vec<Tree> {
    (0..count).map(|_| grow(random, palette, depth - 1)).collect()
}

fn field(random: &mut Random, palette: &Palette, depth: usize) -> (Tree, Tree) {
    (key(random, palette), grow(random, palette, depth - 1))
}

fn leaf(random: &mut Random, palette: &Palette) -> Tree {
    match random.weighted(&[50, 10, 25, 5, 5, 3, 2]) {
        0 => palette.name(random),
        1 => Tree::name("_"),
        2 => Palette::literal(random),
        3 => Tree::Array(Vec::new()),
        4 => Tree::Object(Vec::new()),
        5 => Tree::Other,
        _ => Tree::Set(Vec::new()),
    }
}

fn key(random: &mut Random, palette: &Palette) -> Tree {
    match random.weighted(&[90, 6, 4]) {
        0 => Palette::literal_key(random),
        1 => palette.name(random),
        _ => grow(random, palette, 1),
    }
}

/// A value of the pattern's shape: its names give way to literals, most fields change their order.
pub fn mirror(random: &mut Random, palette: &Palette, pattern: &Tree) -> Tree {
    match pattern {
        Tree::Array(items) => {
            Tree::Array(items.iter().map(|item| mirror(random, palette, item)).collect())
        }
        Tree::Object(fields) => {
            let part = |(key, value): &(Tree, Tree)| (key.clone(), mirror(random, palette, value));
            let mut fields: Vec<_> = fields.iter().map(part).collect();
            random.shuffle(&mut fields);
            Tree::Object(fields)
        }
        Tree::Name(_) if random.chance(90) => Palette::literal(random),
        Tree::Name(_) => grow(random, palette, 1),
        other => other.clone(),
    }
}

/// Both sides behind an item that the structure check mostly calls a match, so it comes to them.
pub fn after_matches(
    random: &mut Random,
    palette: &Palette,
    left: Tree,
    right: Tree,
) -> (Tree, Tree) {
    let (array, object) = (Tree::Array(Vec::new()), Tree::Object(Vec::new()));
    let field = (Palette::literal_key(random), array.clone());
    let computed = (palette.name(random), palette.name(random));
    let (one, other) = match random.below(6) {
        0 => (array.clone(), array),
        1 => (object.clone(), object),
        2 => (object, Tree::Object(vec![field])),
        3 => (Tree::Object(vec![computed.clone()]), Tree::Object(vec![computed])),
        4 => {
            let keyed = |key| Tree::Object(vec![(key, computed.1.clone())]);
            (keyed(Tree::Number(1)), keyed(Tree::string("1")))
        }
        _ => (Tree::Object(vec![field.clone(), computed]), Tree::Object(vec![field])),
    };
    if random.chance(70) {
        (Tree::Array(vec![one, left]), Tree::Array(vec![other, right]))
    } else {
        let fields = |one, other| Tree::Object(vec![(Tree::Null, one), (Tree::Bool(true), other)]);
        (fields(one, left), fields(other, right))
    }
}

/// Two sides made together, so that mostly one of them binds at each place.
pub fn twins(random: &mut Random, palette: &Palette, depth: usize) -> (Tree, Tree) {
    if depth == 0 || random.chance(15) {
        return twin_leaves(random, palette);
    }
    let count = 1 + random.weighted(&[25, 40, 25, 10]);
    if random.chance(60) {
        let items = (0..count).map(|_| twins(random, palette, depth - 1));
        let (left, right) = items.unzip();
        (Tree::Array(left), Tree::Array(right))
    } else {
        twin_objects(random, palette, depth, count)
    }
}

fn twin_leaves(random: &mut Random, palette: &Palette) -> (Tree, Tree) {
    let depth = random.weighted(&[75, 25]);
    let one = if random.chance(80) { palette.name(random) } else { leaf(random, palette) };
    let other = match random.weighted(&[75, 15, 10]) {
        0 => {
            let shape = grow(random, palette, depth);
            mirror(random, palette, &shape)
        }
        1 => palette.name(random),
        _ => leaf(random, palette),
    };
    if random.chance(50) {
        (one, other)
    } else {
        (other, one)
    }
}

fn twin_objects(
    random: &mut Random,
    palette: &Palette,
    depth: usize,
    count: usize,
) -> (Tree, Tree) {
    let mut left: Vec<(Tree, Tree)> = Vec::new();
    let mut right = Vec::new();
    while left.len() < count {
        let key = Palette::literal_key(random);
        if left.iter().all(|(other, _)| *other != key) {
            let (one, other) = twins(random, palette, depth - 1);
            left.push((key.clone(), one));
            right.push((key, other));
        }
    }
    random.shuffle(&mut right);
    let place = random.below(count);
    match random.weighted(&[52, 10, 12, 12, 6, 8]) {
        0 => {}
        1 => computed_key(random, palette, &mut left, &mut right),
        2 => right[place].0 = left[random.below(count)].0.clone(),
        3 => right[place].0 = Palette::literal_key(random),
        4 => right.iter_mut().for_each(|field| field.0 = Palette::literal_key(random)),
        _ => left.insert(random.below(count), (left[place].0.clone(), leaf(random, palette))),
    }
    (Tree::Object(left), Tree::Object(right))
}

/// A computed key in one of the two sides, or in both.
fn computed_key(
    random: &mut Random,
    palette: &Palette,
    left: &mut [(Tree, Tree)],
    right: &mut [(Tree, Tree)],
) {
    let key = palette.name(random);
    let sides = random.below(3);
    if sides != 0 {
        left[random.below(left.len())].0 = key.clone();
    }
    if sides != 1 {
        right[random.below(right.len())].0 = key;
    }
}
