//! Small simple patterns, and values that nearly agree with them.

use crate::generate::Random;
use crate::sheets::Tree;

const TEXTS: [&str; 4] = ["a", "b", "1", ""];
const NUMBERS: [i128; 6] = [1, 2, -1, -(1 << 63), 1 << 63, (1 << 64) - 1];

/// Names, underscores, literals, arrays, and objects with literal keys, all different.
pub fn pattern(random: &mut Random, scope: &[(String, u32)], depth: usize) -> Tree {
    if depth == 0 || random.chance(if depth == 3 { 10 } else { 45 }) {
        return match random.weighted(&[60, 12, 20, 8]) {
            0 => Tree::name(&random.pick(scope).0),
            1 => Tree::name("_"),
            2 => literal(random),
            _ => empty(random),
        };
    }
    let count = random.weighted(&[5, 25, 45, 25]);
    let parts: Vec<Tree> = (0..count).map(|_| pattern(random, scope, depth - 1)).collect();
    if random.chance(50) {
        Tree::Array(parts)
    } else {
        object(random, parts)
    }
}

pub fn value(random: &mut Random, depth: usize) -> Tree {
    if depth == 0 || random.chance(60) {
        return if random.chance(85) { literal(random) } else { empty(random) };
    }
    let parts = (0..1 + random.below(2)).map(|_| value(random, depth - 1)).collect();
    if random.chance(50) {
        Tree::Array(parts)
    } else {
        object(random, parts)
    }
}

fn empty(random: &mut Random) -> Tree {
    if random.chance(50) {
        Tree::Array(Vec::new())
    } else {
        Tree::Object(Vec::new())
    }
}

fn literal(random: &mut Random) -> Tree {
    match random.weighted(&[40, 30, 10, 10, 10]) {
        0 => Tree::Number(*random.pick(&NUMBERS)),
        1 => Tree::String(random.pick::<&str>(&TEXTS).to_string()),
        2 => Tree::RawString(random.pick::<&str>(&TEXTS).to_string()),
        3 => Tree::Bool(random.chance(50)),
        _ => Tree::Null,
    }
}

fn object(random: &mut Random, parts: Vec<Tree>) -> Tree {
    let mut fields: Vec<(Tree, Tree)> = Vec::new();
    parts.into_iter().for_each(|part| fields.push((new_key(random, &fields), part)));
    Tree::Object(fields)
}

/// A literal that is no key of the fields.
pub fn new_key(random: &mut Random, fields: &[(Tree, Tree)]) -> Tree {
    loop {
        let key = literal(random);
        if fields.iter().all(|(own, _)| plain(own) != plain(&key)) {
            return key;
        }
    }
}

/// A string for a raw string of its bytes.
fn plain(tree: &Tree) -> Tree {
    match tree {
        Tree::RawString(text) => Tree::String(text.clone()),
        other => other.clone(),
    }
}

/// An equal value: fields in another order, raw strings for strings and strings for raw ones.
pub fn respelled(random: &mut Random, value: &Tree) -> Tree {
    match value {
        Tree::Array(items) => {
            Tree::Array(items.iter().map(|item| respelled(random, item)).collect())
        }
        Tree::Object(fields) => {
            let field =
                |(key, value): &(Tree, Tree)| (respelled(random, key), respelled(random, value));
            let mut fields: Vec<_> = fields.iter().map(field).collect();
            random.shuffle(&mut fields);
            Tree::Object(fields)
        }
        Tree::String(text) if random.chance(20) => Tree::RawString(text.clone()),
        Tree::RawString(text) if random.chance(20) => Tree::String(text.clone()),
        other => other.clone(),
    }
}

/// Fills patterns with a value for each name, and any value for an underscore.
pub struct Filler<'a> {
    random: &'a mut Random,
    scope: &'a [(String, u32)],
    values: &'a [Tree],
    /// Names to be met before the one that is filled differently.
    before: Option<usize>,
}

impl<'a> Filler<'a> {
    pub fn new(random: &'a mut Random, scope: &'a [(String, u32)], values: &'a [Tree]) -> Self {
        Self { random, scope, values, before: None }
    }

    pub fn fill_one_differently(&mut self, pattern: &Tree) {
        let met = names(pattern).0.len();
        self.before = (met > 0).then(|| self.random.below(met));
    }

    pub fn fill(&mut self, pattern: &Tree) -> Tree {
        match pattern {
            Tree::Name(name) if name == "_" => value(self.random, 1),
            Tree::Name(name) => self.of_name(name),
            Tree::Array(items) => Tree::Array(items.iter().map(|item| self.fill(item)).collect()),
            Tree::Object(fields) => {
                let field =
                    |(key, value): &(Tree, Tree)| (respelled(self.random, key), self.fill(value));
                let mut fields: Vec<_> = fields.iter().map(field).collect();
                self.random.shuffle(&mut fields);
                Tree::Object(fields)
            }
            literal => respelled(self.random, literal),
        }
    }

    fn of_name(&mut self, name: &str) -> Tree {
        let differs = self.before == Some(0);
        self.before = self.before.and_then(|before| before.checked_sub(1));
        let place = self.scope.iter().position(|(own, _)| own == name);
        let own = &self.values[place.expect("the pattern's names are the scope's")];
        if differs {
            let mut other = own.clone();
            change(self.random, &mut other);
            return other;
        }
        respelled(self.random, own)
    }
}

/// Changes a value at one place, and leaves it a value.
pub fn change(random: &mut Random, tree: &mut Tree) {
    match tree {
        Tree::Array(items) if !items.is_empty() && random.chance(60) => {
            let place = random.below(items.len());
            change(random, &mut items[place]);
        }
        Tree::Object(fields) if !fields.is_empty() && random.chance(60) => {
            let place = random.below(fields.len());
            change(random, &mut fields[place].1);
        }
        Tree::Array(items) => change_items(random, items),
        Tree::Object(fields) => change_fields(random, fields),
        leaf => *leaf = value(random, 1),
    }
}

fn change_items(random: &mut Random, items: &mut Vec<Tree>) {
    let place = random.below(items.len() + 1);
    if items.is_empty() || random.chance(40) {
        return items.insert(place, value(random, 1));
    }
    let place = random.below(items.len());
    if random.chance(50) {
        drop(items.remove(place));
    } else {
        items.rotate_left(place.max(1));
    }
}

fn change_fields(random: &mut Random, fields: &mut Vec<(Tree, Tree)>) {
    if fields.is_empty() || random.chance(30) {
        let key = new_key(random, fields);
        let place = random.below(fields.len() + 1);
        return fields.insert(place, (key, value(random, 1)));
    }
    let place = random.below(fields.len());
    match random.below(3) {
        0 => drop(fields.remove(place)),
        1 => fields[place].0 = new_key(random, fields),
        _ => {
            let first = std::mem::replace(&mut fields[0].1, Tree::Null);
            fields[0].1 = std::mem::replace(&mut fields[place].1, first);
        }
    }
}

/// The names of a pattern, each as often as it is met, and the number of its underscores.
pub fn names(pattern: &Tree) -> (Vec<String>, usize) {
    let inner: Vec<&Tree> = match pattern {
        Tree::Name(name) if name == "_" => return (Vec::new(), 1),
        Tree::Name(name) => return (vec![name.clone()], 0),
        Tree::Array(items) => items.iter().collect(),
        Tree::Object(fields) => fields.iter().map(|(_, value)| value).collect(),
        _ => Vec::new(),
    };
    let parts = inner.into_iter().map(names);
    parts.fold((Vec::new(), 0), |(met, count), (more, also)| ([met, more].concat(), count + also))
}

/// The entries of a simple pattern's plan.
pub fn entries(pattern: &Tree) -> usize {
    1 + match pattern {
        Tree::Array(items) => items.iter().map(entries).sum(),
        Tree::Object(fields) => fields.iter().map(|(_, value)| entries(value)).sum(),
        _ => 0,
    }
}
