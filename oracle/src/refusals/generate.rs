//! Random questions: sides made from one another by small changes.

use super::question::Question;
use crate::generate::Random;
use crate::matching::generate::trees::{change, pattern, respelled, value};
use crate::sheets::Tree;

const NAMES: [&str; 4] = ["x", "y", "z", "w"];
const MARKS: [u32; 8] = [0, 0, 0, 0, 1, 4, 5, 16];
const DEPTH: usize = 3;

/// Question n of a seed is always the same. In every fifth keys repeat.
pub fn question(seed: u64, number: u64) -> Question {
    let mut random = Random::of_case(seed, number);
    let names = &NAMES[..1 + random.below(NAMES.len())];
    let mark = |name: &&str| (name.to_string(), *random.pick(&MARKS));
    let scope: Vec<(String, u32)> = names.iter().map(mark).collect();
    let right = pattern(&mut random, &scope, DEPTH);
    let count = 1 + random.weighted(&[70, 20, 10]);
    let mut items: Vec<Tree> = (0..count).map(|_| twin(&mut random, &scope, &right)).collect();
    let mut sides = [vec![right], std::mem::take(&mut items)].concat();
    if number % 5 == 0 {
        let place = random.below(sides.len());
        repeat_key(&mut random, &mut sides[place]);
    }
    let key = random.chance(20).then(|| pattern(&mut random, &scope, 1));
    let pattern = sides.remove(0);
    Question { items: sides, pattern, key, scopes: vec![scope] }
}

/// A side that mostly has the shape of another, but for one place or two.
fn twin(random: &mut Random, scope: &[(String, u32)], side: &Tree) -> Tree {
    if random.chance(5) {
        return pattern(random, scope, DEPTH);
    }
    let mut twin = opposite(random, scope, side);
    (0..random.weighted(&[15, 60, 25])).for_each(|_| change(random, &mut twin));
    twin
}

/// Names and underscores for parts, and parts for names and underscores.
pub(crate) fn opposite(random: &mut Random, scope: &[(String, u32)], side: &Tree) -> Tree {
    if random.chance(8) {
        return pattern(random, scope, 0);
    }
    match side {
        Tree::Array(items) => {
            Tree::Array(items.iter().map(|item| opposite(random, scope, item)).collect())
        }
        Tree::Object(fields) => {
            let field = |(key, value): &(Tree, Tree)| {
                (respelled(random, key), opposite(random, scope, value))
            };
            let mut fields: Vec<_> = fields.iter().map(field).collect();
            random.shuffle(&mut fields);
            Tree::Object(fields)
        }
        Tree::Name(_) if random.chance(50) => value(random, 1),
        Tree::Name(_) => pattern(random, scope, 1),
        literal => respelled(random, literal),
    }
}

/// Writes a field of an object twice, the second time at times with another value.
fn repeat_key(random: &mut Random, tree: &mut Tree) {
    match tree {
        Tree::Object(fields) if !fields.is_empty() => {
            let place = random.below(fields.len());
            if random.chance(40) {
                return repeat_key(random, &mut fields[place].1);
            }
            let (key, own) = fields[place].clone();
            let again = if random.chance(60) { own } else { value(random, 1) };
            fields.insert(random.below(fields.len() + 1), (respelled(random, &key), again));
        }
        Tree::Array(items) if !items.is_empty() => {
            let place = random.below(items.len());
            repeat_key(random, &mut items[place]);
        }
        _ => {}
    }
}
