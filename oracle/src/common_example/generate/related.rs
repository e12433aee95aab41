//! Two small patterns that have something to do with each other.

use crate::generate::Random;
use crate::matching::case::Origin;
use crate::matching::generate::trees::{change, pattern, respelled, value};
use crate::matching::generate::{parts, scope, Parts};
use crate::refusals::generate::opposite;
use crate::sheets::Tree;

/// Names with their marks.
pub type Scope = Vec<(String, u32)>;

/// Both are made from one value, which is at times changed in between.
pub fn instances(random: &mut Random) -> [Parts; 2] {
    let origin = match random.weighted(&[65, 12, 15, 8]) {
        0 => Origin::Filled,
        1 => Origin::Differing,
        2 => Origin::Changed,
        _ => Origin::Unrelated,
    };
    let first = parts(random, origin);
    let scope = scope(random);
    let mut values = vec![None; scope.len()];
    let pattern = generalized(random, &first.value, &scope, &mut values);
    let values = values.into_iter().map(|held| held.unwrap_or_else(|| value(random, 1)));
    let values: Vec<Tree> = values.collect();
    let second = Parts::new(random, pattern, scope, &values);
    [first, second]
}

/// Names and underscores for parts of a value; a name stands for equal parts alone.
fn generalized(
    random: &mut Random,
    part: &Tree,
    scope: &Scope,
    values: &mut [Option<Tree>],
) -> Tree {
    if random.chance(10) {
        return Tree::name("_");
    }
    let place = random.below(scope.len());
    let is_free = values[place].as_ref().is_none_or(|held| held == part);
    if random.chance(25) && is_free && scope[place].0 != "_" {
        values[place] = Some(part.clone());
        return Tree::name(&scope[place].0);
    }
    let mut inner = |part: &Tree| generalized(random, part, scope, values);
    match part {
        Tree::Array(items) => Tree::Array(items.iter().map(inner).collect()),
        Tree::Object(fields) => {
            let fields = fields.iter().map(|(key, value)| (key.clone(), inner(value)));
            let mut fields: Vec<(Tree, Tree)> = fields.collect();
            fields.iter_mut().for_each(|(key, _)| *key = respelled(random, key));
            random.shuffle(&mut fields);
            Tree::Object(fields)
        }
        literal => respelled(random, literal),
    }
}

/// The second has parts for names and names for parts of the first.
pub fn twins(random: &mut Random) -> [Parts; 2] {
    let first = parts(random, Origin::Filled);
    let scope = scope(random);
    let mut twin = opposite(random, &scope, &first.pattern);
    if random.chance(25) {
        change(random, &mut twin);
    }
    [first, side(random, twin, scope)]
}

/// Arrays whose items are mostly a name on one side and anything on the other, so that names of
/// both sides hold each other.
pub fn equations(random: &mut Random) -> [Parts; 2] {
    let scopes = [scope(random), scope(random)];
    let count = 1 + random.below(6);
    let items: Vec<[Tree; 2]> = (0..count).map(|_| equation(random, &scopes)).collect();
    let [first, second] = scopes;
    let [left, right] = arrays(items);
    [side(random, left, first), side(random, right, second)]
}

fn equation(random: &mut Random, scopes: &[Scope; 2]) -> [Tree; 2] {
    let place = random.below(2);
    let (own, other) = (&scopes[place], &scopes[1 - place]);
    let depth = random.below(3);
    let pair = if random.chance(80) {
        [Tree::name(&random.pick(own).0), pattern(random, other, depth)]
    } else {
        let left = pattern(random, own, depth);
        let right = opposite(random, other, &left);
        [left, right]
    };
    turned(pair, place)
}

/// The side of a place first.
pub fn turned([own, other]: [Tree; 2], place: usize) -> [Tree; 2] {
    if place == 0 {
        [own, other]
    } else {
        [other, own]
    }
}

/// The arrays whose items are to be equal.
pub fn arrays(items: Vec<[Tree; 2]>) -> [Tree; 2] {
    let (left, right) = items.into_iter().map(|[left, right]| (left, right)).unzip();
    [Tree::Array(left), Tree::Array(right)]
}

/// A side whose known names have any values.
pub fn side(random: &mut Random, pattern: Tree, scope: Scope) -> Parts {
    let values: Vec<Tree> = scope.iter().map(|_| value(random, 1)).collect();
    Parts::new(random, pattern, scope, &values)
}
