//! Lines that mostly read what is ready and bind what is not: so that a body goes on.

use super::names::Names;
use crate::generate::{rules, Random};
use crate::sheets::{Operation, Rule, Tree};

/// A line of any sort; now and then one of the generated sheets' rules, of any names.
pub fn line(random: &mut Random, names: &mut Names) -> Rule {
    let rule = match random.weighted(&[22, 18, 18, 8, 9, 12, 8, 5]) {
        0 => {
            let (pattern, value) = sides(random, names);
            Rule::two_sided(Operation::ColonEquals, pattern, value)
        }
        1 => {
            let (pattern, value) = sides(random, names);
            equals(random, pattern, value)
        }
        2 => pairs(random, names),
        3 => {
            let (left, right) = (value(random, names, 2), value(random, names, 1));
            Rule::two_sided(Operation::Equals, left, right)
        }
        4 => wildcard(random, names),
        5 => some_in(random, names),
        6 => Rule::new(Operation::Index, pattern(random, names, 2)),
        _ => any_rule(random, names),
    };
    names.settle();
    rule
}

/// A line that binds nothing, for bodies that repeat it.
pub fn plain_line(random: &mut Random, names: &mut Names) -> Rule {
    let rule = wildcard(random, names);
    names.settle();
    rule
}

fn equals(random: &mut Random, one: Tree, other: Tree) -> Rule {
    let (left, right) = if random.chance(50) { (one, other) } else { (other, one) };
    Rule::two_sided(Operation::Equals, left, right)
}

fn wildcard(random: &mut Random, names: &mut Names) -> Rule {
    let other = if random.chance(10) { Tree::name("_") } else { value(random, names, 2) };
    equals(random, Tree::name("_"), other)
}

fn some_in(random: &mut Random, names: &mut Names) -> Rule {
    let key = random.chance(50).then(|| match random.weighted(&[60, 40]) {
        0 => pattern(random, names, 1),
        _ => Tree::Object(vec![(computed(random, names), names.bind(random))]),
    });
    let (mut value, item) = sides(random, names);
    if random.chance(15) {
        value = Tree::Object(vec![(computed(random, names), value)]);
    }
    let collection = match random.weighted(&[40, 40, 20]) {
        0 => names.read(random),
        1 => Tree::Array(vec![item; random.below(3)]),
        _ => self::value(random, names, 2),
    };
    Rule { key, ..Rule::two_sided(Operation::SomeIn, value, collection) }
}

/// One that a body may have; the names that it brings are marked as it says.
fn any_rule(random: &mut Random, names: &mut Names) -> Rule {
    loop {
        let rule = rules::rule(random);
        if (2..=5).contains(&(rule.operation as u32)) {
            names.bring(&rule.scope);
            return rule;
        }
    }
}

/// Both sides bind: each item is given a value or takes one, mostly after those it reads.
fn pairs(random: &mut Random, names: &mut Names) -> Rule {
    let count = 2 + random.weighted(&[40, 40, 20]);
    let mut items = Vec::new();
    for place in 0..count {
        let (one, other) = match random.weighted(&[85, 15]) {
            0 => sides(random, names),
            _ => (value(random, names, 1), value(random, names, 1)),
        };
        items.push(if place % 2 == 0 { (one, other) } else { (other, one) });
        names.settle();
    }
    let keys = ["a", "b", "c", "d"].map(Tree::string);
    let (left, right): (Vec<Tree>, Vec<Tree>) = items.into_iter().unzip();
    let side = |items: Vec<Tree>, object| match object {
        true => Tree::Object(keys.iter().cloned().zip(items).collect()),
        false => Tree::Array(items),
    };
    let object = random.chance(30);
    equals(random, side(left, object), side(right, object))
}

/// A pattern and a value of its shape.
fn sides(random: &mut Random, names: &mut Names) -> (Tree, Tree) {
    let depth = random.weighted(&[40, 40, 20]);
    let pattern = pattern(random, names, depth);
    let value = of_shape(random, names, &pattern);
    (pattern, value)
}

fn of_shape(random: &mut Random, names: &mut Names, pattern: &Tree) -> Tree {
    match pattern {
        _ if random.chance(10) => names.read(random),
        Tree::Array(items) => {
            Tree::Array(items.iter().map(|item| of_shape(random, names, item)).collect())
        }
        Tree::Object(fields) => {
            let mut shape = |(key, value): &(Tree, Tree)| {
                let key = if is_literal(key) { key.clone() } else { names.read(random) };
                (key, of_shape(random, names, value))
            };
            Tree::Object(fields.iter().map(&mut shape).collect())
        }
        literal if is_literal(literal) => literal.clone(),
        _ => value(random, names, 1),
    }
}

fn is_literal(tree: &Tree) -> bool {
    use Tree::{Bool, Null, Number, RawString, String};
    matches!(tree, String(_) | RawString(_) | Number(_) | Bool(_) | Null)
}

fn pattern(random: &mut Random, names: &mut Names, depth: usize) -> Tree {
    if depth == 0 || random.chance(20) {
        return match random.weighted(&[75, 12, 3, 7, 3]) {
            0 => names.bind(random),
            1 => Tree::name("_"),
            2 => names.read(random),
            3 => literal(random),
            _ => Tree::Set(vec![names.read(random)]),
        };
    }
    let count = random.weighted(&[5, 40, 40, 15]);
    if random.chance(55) {
        return Tree::Array((0..count).map(|_| pattern(random, names, depth - 1)).collect());
    }
    let field = |random: &mut Random, names: &mut Names| {
        let key = if random.chance(80) { key(random) } else { computed(random, names) };
        (key, pattern(random, names, depth - 1))
    };
    Tree::Object((0..count).map(|_| field(random, names)).collect())
}

fn key(random: &mut Random) -> Tree {
    random.pick(&[Tree::string("a"), Tree::string("b"), Tree::Number(1), Tree::Null]).clone()
}

fn computed(random: &mut Random, names: &mut Names) -> Tree {
    match random.weighted(&[60, 15, 15, 10]) {
        _ if random.chance(15) => names.any(random),
        0 => names.read(random),
        1 => Tree::Array(vec![literal(random), names.read(random)]),
        2 => Tree::Set(vec![names.read(random)]),
        _ => Tree::Other,
    }
}

fn value(random: &mut Random, names: &mut Names, depth: usize) -> Tree {
    if depth == 0 || random.chance(40) {
        return match random.weighted(&[50, 35, 5, 10]) {
            0 => names.read(random),
            1 => literal(random),
            2 => Tree::name("_"),
            _ => Tree::Other,
        };
    }
    let count = random.weighted(&[10, 40, 35, 15]);
    let mut inner = |random: &mut Random| value(random, names, depth - 1);
    match random.weighted(&[45, 25, 30]) {
        0 => Tree::Array((0..count).map(|_| inner(random)).collect()),
        1 => Tree::Set((0..count).map(|_| inner(random)).collect()),
        _ => Tree::Object((0..count).map(|_| (inner(random), inner(random))).collect()),
    }
}

fn literal(random: &mut Random) -> Tree {
    random.pick(&[Tree::Number(1), Tree::Number(2), Tree::string("a"), Tree::Null]).clone()
}
