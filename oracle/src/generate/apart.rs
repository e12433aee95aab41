//! Two sides that the readings of the structure check tell apart: mismatches behind unknown items
//! and computed fields, several of them in one object, fields of one key or of one key text.

use super::mutate::respelled;
use super::palette::Palette;
use super::random::Random;
use crate::sheets::Tree;

type Sides = (Tree, Tree);
type Fields = Vec<(Tree, Tree)>;

/// A pattern and a value, an array or an object each.
pub fn apart(random: &mut Random, palette: &Palette, depth: usize) -> Sides {
    if random.chance(50) {
        let count = 2 + random.weighted(&[40, 40, 20]);
        let (left, right) = (0..count).map(|_| part(random, palette, depth)).unzip();
        (Tree::Array(left), Tree::Array(right))
    } else {
        objects(random, palette, depth)
    }
}

fn part(random: &mut Random, palette: &Palette, depth: usize) -> Sides {
    let weights = if depth == 0 { [50, 20, 30, 0] } else { [35, 10, 15, 40] };
    match random.weighted(&weights) {
        0 => unknown(random, palette),
        1 => fitting(random),
        2 => mismatching(random, palette),
        _ => apart(random, palette, depth - 1),
    }
}

/// Items of which the check says nothing.
fn unknown(random: &mut Random, palette: &Palette) -> Sides {
    let (one, other) = (blank(random, palette), value(random));
    let object = |key, value| Tree::Object(vec![(key, value)]);
    match random.weighted(&[50, 10, 10, 10, 10, 10]) {
        0 => (one, other),
        1 => (Tree::Other, other),
        2 => (object(palette.name(random), one), object(Palette::literal_key(random), other)),
        3 => (object(Tree::Number(1), one), object(Tree::string("1"), other)),
        4 => (Tree::Array(vec![one]), object(Palette::literal_key(random), other)),
        _ => (Tree::Array(vec![one]), palette.name(random)),
    }
}

fn fitting(random: &mut Random) -> Sides {
    let (array, object) = (Tree::Array(Vec::new()), Tree::Object(Vec::new()));
    match random.below(3) {
        0 => (array.clone(), array),
        1 => (object.clone(), object),
        _ => (object, Tree::Object(vec![(Palette::literal_key(random), value(random))])),
    }
}

/// Arrays of two lengths or objects of two keys.
fn mismatching(random: &mut Random, palette: &Palette) -> Sides {
    if random.chance(25) {
        let field = |key, value| Tree::Object(vec![(Tree::string(key), value)]);
        return (field("a", blank(random, palette)), field("b", value(random)));
    }
    let (one, other) = (random.below(3), random.below(3));
    let other = if one == other { 3 } else { other };
    let left = (0..one).map(|_| blank(random, palette)).collect();
    let right = (0..other).map(|_| value(random)).collect();
    (Tree::Array(left), Tree::Array(right))
}

/// Mostly `_`, which binds nothing that could be known or defined.
fn blank(random: &mut Random, palette: &Palette) -> Tree {
    if random.chance(60) {
        Tree::name("_")
    } else {
        palette.name(random)
    }
}

fn value(random: &mut Random) -> Tree {
    let count = random.weighted(&[80, 10, 10]);
    match count {
        0 => Palette::literal(random),
        _ => Tree::Array((0..count).map(|_| Palette::literal(random)).collect()),
    }
}

fn objects(random: &mut Random, palette: &Palette, depth: usize) -> Sides {
    let mut keys =
        [Tree::string("a"), Tree::string("b"), Tree::RawString("c".into()), Tree::Bool(true)];
    random.shuffle(&mut keys);
    let count = 1 + random.weighted(&[20, 40, 40]);
    let (mut left, mut right) = (Vec::new(), Vec::new());
    let all_mismatch = random.chance(30);
    for key in &keys[..count] {
        let (one, other) = match all_mismatch {
            true => mismatching(random, palette),
            false => part(random, palette, depth),
        };
        left.push((key.clone(), one));
        right.push((key.clone(), other));
    }
    match random.weighted(&[35, 20, 10, 10, 25]) {
        0 => {}
        1 => {
            let computed = (palette.name(random), blank(random, palette));
            insert(random, &mut left, computed);
        }
        2 => {
            let computed = (palette.name(random), value(random));
            insert(random, &mut right, computed);
        }
        3 => {
            let lost = part(random, palette, 0).0;
            left.insert(0, (respelled(&keys[0]), lost));
        }
        _ => one_text(random, palette, &mut left, &mut right),
    }
    random.shuffle(&mut right);
    (Tree::Object(left), Tree::Object(right))
}

fn insert(random: &mut Random, fields: &mut Fields, field: (Tree, Tree)) {
    fields.insert(random.below(fields.len() + 1), field);
}

/// Two keys of one text on the left, and on the right these or one of them twice.
fn one_text(random: &mut Random, palette: &Palette, left: &mut Fields, right: &mut Fields) {
    let key = random.pick(&[Tree::Number(1), Tree::Null]).clone();
    let mut keys = [respelled(&key), key];
    for key in &keys {
        let one = part(random, palette, 0).0;
        insert(random, left, (key.clone(), one));
    }
    if random.chance(70) {
        random.shuffle(&mut keys);
        keys[1] = keys[0].clone();
    }
    for key in &keys {
        let other = part(random, palette, 0).1;
        right.push((key.clone(), other));
    }
}
