//! Random rules of the six operations.

use super::apart::apart;
use super::grow::{after_matches, grow, mirror, twins};
use super::mutate::{mutate, reshape};
use super::palette::Palette;
use super::random::Random;
use crate::sheets::{Operation, Rule, Tree};

pub fn rule(random: &mut Random) -> Rule {
    let palette = Palette::new(random);
    let mut rule = match random.weighted(&[10, 22, 38, 16, 5, 9]) {
        0 => Rule::new(Operation::Pattern, pattern(random, &palette)),
        1 => colon_equals(random, &palette),
        2 => equals(random, &palette),
        3 => some_in(random, &palette),
        4 => Rule::new(Operation::Index, pattern(random, &palette)),
        _ => parameter(random, &palette),
    };
    rule.scheduler = random.chance(50);
    rule.shadowing = random.chance(50);
    rule.careful = random.chance(40);
    if rule.second.is_none() && random.chance(15) {
        // Roots that the operation does not use.
        rule.second = Some(grow(random, &palette, 1));
        rule.key = Some(grow(random, &palette, 1));
    }
    rule.scope = palette.scope;
    if random.chance(20) {
        rule.scope.push(("_".into(), random.below(32) as u32));
    }
    rule
}

fn pattern(random: &mut Random, palette: &Palette) -> Tree {
    let depth = 1 + random.weighted(&[30, 40, 20, 10]);
    let pattern = grow(random, palette, depth);
    match random.weighted(&[60, 20, 20]) {
        0 => pattern,
        1 => Tree::Array(vec![pattern, grow(random, palette, 1)]),
        _ => Tree::Object(vec![(Palette::literal_key(random), pattern)]),
    }
}

/// Sides on which the readings of the structure check differ.
fn apart_sides(random: &mut Random, palette: &Palette) -> (Tree, Tree) {
    let depth = random.weighted(&[40, 45, 15]);
    apart(random, palette, depth)
}

/// A pattern and a value that it nearly takes apart.
fn near_sides(random: &mut Random, palette: &Palette) -> (Tree, Tree) {
    if random.chance(35) {
        return apart_sides(random, palette);
    }
    let left = pattern(random, palette);
    let right = near(random, palette, &left);
    match random.weighted(&[50, 25, 25]) {
        0 => (left, right),
        1 => after_matches(random, palette, left, right),
        _ => {
            let (name, value) = (palette.name(random), Palette::literal(random));
            (Tree::Array(vec![left, name]), Tree::Array(vec![right, value]))
        }
    }
}

/// A value that the pattern takes apart, but for a few changes.
fn near(random: &mut Random, palette: &Palette, pattern: &Tree) -> Tree {
    let mut value = mirror(random, palette, pattern);
    for _ in 0..random.weighted(&[35, 40, 15, 10]) {
        mutate(random, palette, &mut value);
    }
    value
}

/// Names in sets are not planned, yet validated.
fn parameter(random: &mut Random, palette: &Palette) -> Rule {
    let mut parameter = pattern(random, palette);
    if random.chance(25) {
        let set = Tree::Set(vec![palette.name(random)]);
        parameter = Tree::Array(vec![parameter, set]);
    }
    Rule::new(Operation::Parameter, parameter)
}

fn colon_equals(random: &mut Random, palette: &Palette) -> Rule {
    let (left, right) = near_sides(random, palette);
    Rule::two_sided(Operation::ColonEquals, left, right)
}

fn equals(random: &mut Random, palette: &Palette) -> Rule {
    let (mut left, mut right) = match random.weighted(&[55, 30, 10, 5]) {
        0 => {
            let depth = random.weighted(&[10, 40, 40, 10]);
            twins(random, palette, depth)
        }
        1 => near_sides(random, palette),
        2 => (
            Tree::name("_"),
            if random.chance(25) { Tree::name("_") } else { grow(random, palette, 1) },
        ),
        _ => (pattern(random, palette), pattern(random, palette)),
    };
    match random.weighted(&[50, 40, 10]) {
        0 => {}
        1 => reshape(random, palette, &mut right),
        _ => mutate(random, palette, &mut right),
    }
    if random.chance(50) {
        std::mem::swap(&mut left, &mut right);
    }
    Rule::two_sided(Operation::Equals, left, right)
}

fn some_in(random: &mut Random, palette: &Palette) -> Rule {
    let (value, collection) = match random.weighted(&[55, 25, 20]) {
        0 => {
            let value = pattern(random, palette);
            let count = random.weighted(&[5, 45, 30, 20]);
            let items = (0..count).map(|_| near(random, palette, &value)).collect();
            (value, Tree::Array(items))
        }
        1 => {
            let (value, item) = apart_sides(random, palette);
            let mut items = vec![item; 1 + random.weighted(&[50, 30, 20])];
            items[1..].iter_mut().for_each(|item| reshape(random, palette, item));
            (value, Tree::Array(items))
        }
        _ => (pattern(random, palette), grow(random, palette, 2)),
    };
    let key = random.chance(40).then(|| grow(random, palette, 1));
    Rule { key, ..Rule::two_sided(Operation::SomeIn, value, collection) }
}
