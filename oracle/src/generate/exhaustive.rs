//! All small patterns over two names, `_` and two literals, under all scopes over those names.

use super::random::Random;
use super::structures;
use crate::sheets::{encode, Operation, Rule, Tree};
use std::sync::OnceLock;

const NAMES: [&str; 2] = ["x", "y"];
/// Unbound, known from a parent, known from this scope.
const FEW_MARKS: [u32; 3] = [0, 1, 3];

const SINGLES: [(Operation, bool); 5] = [
    (Operation::Pattern, false),
    (Operation::Pattern, true),
    (Operation::Index, false),
    (Operation::Parameter, false),
    (Operation::Parameter, true),
];
const DOUBLES: [Operation; 3] = [Operation::ColonEquals, Operation::Equals, Operation::SomeIn];

/// Every pattern of at most 4 nodes, and every two of at most 2, under all marks and both scheduler
/// values; every two of at most 3 under three marks a name; then all small structures.
pub fn for_each_sheet(mut visit: impl FnMut(&[u8])) {
    let all_marks: Vec<u32> = (0..32).collect();
    let mut under = |rule: &Rule, marks: &[u32]| {
        for scope in scopes(rule, marks) {
            visit(&encode(&Rule { scope, ..rule.clone() }).bytes());
        }
    };
    for pattern in patterns(4) {
        for (operation, shadowing) in SINGLES {
            for scheduler in [false, true] {
                let rule = Rule::new(operation, pattern.clone());
                under(&Rule { shadowing, scheduler, ..rule }, &all_marks);
            }
        }
    }
    for rule in two_sided(2) {
        under(&rule, &all_marks);
        under(&Rule { scheduler: true, ..rule }, &all_marks);
    }
    two_sided(3).for_each(|rule| under(&rule, &FEW_MARKS));
    structures::for_each_rule(|rule| visit(&encode(rule).bytes()));
}

fn two_sided(size: usize) -> impl Iterator<Item = Rule> {
    let pairs = pairs(patterns(size));
    pairs.flat_map(|(first, second)| {
        DOUBLES.map(|operation| Rule::two_sided(operation, first.clone(), second.clone()))
    })
}

fn pairs(patterns: Vec<Tree>) -> impl Iterator<Item = (Tree, Tree)> {
    let seconds = patterns.clone();
    let with_each = move |first: Tree| {
        let seconds = seconds.clone();
        seconds.into_iter().map(move |second| (first.clone(), second))
    };
    patterns.into_iter().flat_map(with_each)
}

/// All ways to mark the names that a rule has.
fn scopes(rule: &Rule, marks: &[u32]) -> Vec<Vec<(String, u32)>> {
    let trees = [Some(&rule.first), rule.second.as_ref()];
    let has = |name: &&&str| trees.iter().flatten().any(|tree| tree.has_name(name));
    let mut scopes = vec![Vec::new()];
    for name in NAMES.iter().filter(has) {
        let marked = |scope: Vec<(String, u32)>| {
            let with = |mark: &u32| [scope.as_slice(), &[(name.to_string(), *mark)]].concat();
            marks.iter().map(with).collect::<Vec<_>>()
        };
        scopes = scopes.into_iter().flat_map(marked).collect();
    }
    scopes
}

/// One of the small rules, with or without a some-in key.
pub fn any(random: &mut Random) -> Vec<u8> {
    static PATTERNS: OnceLock<Vec<Tree>> = OnceLock::new();
    let patterns = PATTERNS.get_or_init(|| patterns(3));
    let (operation, shadowing) = *random.pick(&SINGLES);
    let mut rule = Rule::new(operation, random.pick(patterns).clone());
    if random.chance(75) {
        rule.operation = *random.pick(&DOUBLES);
        rule.second = Some(random.pick(patterns).clone());
        rule.key = random.chance(50).then(|| random.pick(patterns).clone());
    }
    let scope = NAMES.map(|name| (name.to_string(), random.below(32) as u32));
    let (scheduler, careful) = (random.chance(50), random.chance(40));
    encode(&Rule { shadowing, careful, scheduler, scope: scope.into(), ..rule }).bytes()
}

/// The patterns of at most `size` nodes.
pub fn patterns(size: usize) -> Vec<Tree> {
    (1..=size).flat_map(of_size).collect()
}

fn of_size(size: usize) -> Vec<Tree> {
    let mut trees = if size == 1 { leaves() } else { Vec::new() };
    for items in lists(size - 1) {
        trees.push(Tree::Array(items.clone()));
        trees.push(Tree::Set(items.clone()));
        if items.len() % 2 == 0 {
            let field = |pair: &[Tree]| (pair[0].clone(), pair[1].clone());
            trees.push(Tree::Object(items.chunks(2).map(field).collect()));
        }
    }
    trees
}

fn leaves() -> Vec<Tree> {
    let names = NAMES.iter().chain(&["_"]).map(|name| Tree::name(name));
    names.chain([Tree::Number(1), Tree::string("1")]).collect()
}

/// The lists of patterns of `size` nodes in all.
fn lists(size: usize) -> Vec<Vec<Tree>> {
    if size == 0 {
        return vec![Vec::new()];
    }
    let mut all = Vec::new();
    for first in 1..=size {
        let rests = lists(size - first);
        for tree in of_size(first) {
            for rest in &rests {
                all.push([std::slice::from_ref(&tree), rest].concat());
            }
        }
    }
    all
}
