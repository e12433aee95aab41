//! All pairs of small patterns, each held against all small values: those that both match have to
//! be the instances of what the second reading finds, and there is none where it finds none.

use super::case::Pair;
use crate::matching::case::Case;
use crate::matching::exhaustive::trees;
use crate::matching::generate::trees::{entries, names};
use crate::matching::reading::{expr, value_at, Expr};
use crate::matching::value::{equal, Value};
use crate::refusals::unification::{unified, Side, Term, Unified};
use crate::sheets::draft::FIRST;
use crate::sheets::{encode, Operation, Rule, Tree};
use std::collections::BTreeMap;
use std::rc::Rc;

/// The most nodes, keys aside: of a pattern, of two, of a pattern whose names are known at times, of
/// an array of names, of a value.
const PATTERN_SIZE: usize = 4;
const PAIR_SIZE: usize = 7;
const KNOWN_SIZE: usize = 3;
const ARRAY_SIZE: usize = 5;
const VALUE_SIZE: usize = 5;
const NAMES: [&str; 2] = ["x", "y"];
/// More words than any of the values needs.
const NODE_ROOM: usize = 5 * 64 + 3;
const CHILD_ROOM: usize = 64;

/// A pattern and for each name 0, or the number of its value.
#[derive(Clone)]
struct Small {
    pattern: Tree,
    listed: [usize; 2],
}

type Known = BTreeMap<u32, Rc<Value>>;

/// A bit for each small value.
#[derive(PartialEq)]
struct Bits(Vec<u64>);

impl Bits {
    fn of(values: &[Rc<Value>], is: impl Fn(&Rc<Value>) -> bool) -> Self {
        let bits = |part: &[Rc<Value>]| {
            part.iter().rev().fold(0, |bits, value| bits << 1 | u64::from(is(value)))
        };
        Self(values.chunks(64).map(bits).collect())
    }

    fn and(&self, other: &Self) -> Self {
        Self(self.0.iter().zip(&other.0).map(|(one, other)| one & other).collect())
    }

    fn is_empty(&self) -> bool {
        self.0.iter().all(|&bits| bits == 0)
    }
}

pub struct Exhaustive {
    values: Vec<Rc<Value>>,
    /// The instances of each template that was met, by its text.
    instances: BTreeMap<String, Bits>,
    /// Pairs that match a small value both.
    pub overlapping: u64,
    /// Pairs that match others than they should.
    pub contradictions: Vec<String>,
}

impl Default for Exhaustive {
    fn default() -> Self {
        let values = trees(&[Tree::Number(1), Tree::Null], VALUE_SIZE).into_iter().map(value);
        let (values, instances) = (values.collect(), BTreeMap::new());
        Self { values, instances, overlapping: 0, contradictions: Vec::new() }
    }
}

fn value(tree: Tree) -> Rc<Value> {
    let case = Case::new(encode(&Rule::new(Operation::Pattern, tree)));
    value_at(&case, case.pattern()).expect("it is a value")
}

impl Exhaustive {
    /// The number of values, and of templates that were met.
    pub fn counts(&self) -> [usize; 2] {
        [self.values.len(), self.instances.len()]
    }

    /// Every two patterns over x, y, `_` and 1, with `[]`, `{}` and the keys "a" and 1, of at most 4
    /// nodes each and 7 together; and every two arrays over x and y of at most 5 nodes each.
    pub fn for_each_pair(&mut self, mut visit: impl FnMut(Pair)) {
        self.for_each_of(&smalls(), PAIR_SIZE, &mut visit);
        self.for_each_of(&arrays(), 2 * ARRAY_SIZE, &mut visit);
    }

    /// Those of at most so many nodes together.
    fn for_each_of(&mut self, smalls: &[Small], most: usize, visit: &mut impl FnMut(Pair)) {
        let matched: Vec<Bits> = smalls.iter().map(|small| self.matched(small)).collect();
        for (one, by_one) in smalls.iter().zip(&matched) {
            for (other, by_other) in smalls.iter().zip(&matched) {
                if entries(&one.pattern) + entries(&other.pattern) <= most {
                    let pair = pair([one, other]);
                    self.judge(&pair, &by_one.and(by_other));
                    visit(pair);
                }
            }
        }
    }

    fn matched(&self, small: &Small) -> Bits {
        let [case, _] = pair([small, small]).sides;
        let (pattern, known) = (expr(&case, case.pattern()), known(&case));
        let known: Known =
            known.into_iter().map(|(name, node)| (name, held(&case, node))).collect();
        Bits::of(&self.values, |value| matches(&pattern, value, &mut known.clone()))
    }

    /// `common`: the values that both match.
    fn judge(&mut self, pair: &Pair, common: &Bits) {
        self.overlapping += u64::from(!common.is_empty());
        let patterns = pair.sides.each_ref().map(|case| expr(case, case.pattern()));
        let [one, other] = [0, 1].map(|place| {
            let case = &pair.sides[place];
            let known = known(case).into_iter().map(|(name, node)| (name, expr(case, node)));
            Side { pattern: &patterns[place], known: known.collect() }
        });
        let agrees = match unified(&one, &other) {
            Ok(overlap) => *self.instances_of(&overlap) == *common,
            Err(_) => common.is_empty(),
        };
        if !agrees {
            let text = String::from_utf8_lossy(&pair.sides[0].draft.text);
            let lists = pair.sides.each_ref().map(|case| &case.values);
            self.contradictions.push(format!("{text}, lists {lists:?}"));
        }
    }

    fn instances_of(&mut self, overlap: &Unified) -> &Bits {
        let template = template(overlap, &overlap.whole, &mut Vec::new());
        let is_instance = |value: &Rc<Value>| matches(&template, value, &mut Known::new());
        let instances = || Bits::of(&self.values, is_instance);
        self.instances.entry(format!("{template:?}")).or_insert_with(instances)
    }
}

fn smalls() -> Vec<Small> {
    let leaves = [Tree::name("x"), Tree::name("y"), Tree::name("_"), Tree::Number(1)];
    let patterns = trees(&leaves, PATTERN_SIZE).into_iter();
    patterns.filter(has_x_first).flat_map(with_lists).collect()
}

fn arrays() -> Vec<Small> {
    let patterns = trees(&NAMES.map(Tree::name), ARRAY_SIZE).into_iter();
    let patterns = patterns.filter(|pattern| has_x_first(pattern) && has_no_object(pattern));
    patterns.map(|pattern| Small { pattern, listed: [0; 2] }).collect()
}

/// Names that are only exchanged are left out.
fn has_x_first(pattern: &Tree) -> bool {
    names(pattern).0.first().is_none_or(|name| name == NAMES[0])
}

fn has_no_object(pattern: &Tree) -> bool {
    match pattern {
        Tree::Array(items) => items.iter().all(has_no_object),
        other => matches!(other, Tree::Name(_)),
    }
}

/// Names are unknown, or known with each of the values where the pattern is small enough.
fn with_lists(pattern: Tree) -> impl Iterator<Item = Small> {
    let most = if entries(&pattern) <= KNOWN_SIZE { values_of_names().len() } else { 0 };
    let [x, y] = NAMES.map(|name| if pattern.has_name(name) { most } else { 0 });
    let lists = (0..=x).flat_map(move |x| (0..=y).map(move |y| [x, y]));
    lists.map(move |listed| Small { pattern: pattern.clone(), listed })
}

fn values_of_names() -> Vec<Tree> {
    vec![Tree::Number(1), Tree::Array(Vec::new())]
}

/// The values of names are items of an array, the third root.
fn pair(smalls: [&Small; 2]) -> Pair {
    let [left, right] = smalls.map(|small| small.pattern.clone());
    let rule = Rule::two_sided(Operation::Pattern, left, right);
    let draft = encode(&Rule { key: Some(Tree::Array(values_of_names())), ..rule });
    let sides = [0, 1].map(|place| {
        let mut case = Case::new(draft.clone());
        case.draft.roots[0] = draft.roots[place];
        let first = draft.nodes[draft.roots[2] as usize - 1][FIRST] as usize;
        for (name, &listed) in NAMES.iter().zip(&smalls[place].listed) {
            if listed > 0 {
                let number = case.name_number(name.as_bytes()) as usize;
                case.marks[number - 1] = 1;
                case.values[number - 1] = draft.children[first + listed - 1];
            }
        }
        case
    });
    Pair { sides, node_room: NODE_ROOM, child_room: CHILD_ROOM, answer_room: 4 }
}

/// The nodes of known names.
fn known(case: &Case) -> Vec<(u32, u32)> {
    (1..).zip(case.values.iter().copied()).filter(|&(_, node)| node != 0).collect()
}

fn held(case: &Case, node: u32) -> Rc<Value> {
    value_at(case, node).expect("it is a value")
}

/// What both match as a pattern: its names are the holes, as they are met.
fn template(overlap: &Unified, term: &Rc<Term>, holes: &mut Vec<usize>) -> Expr {
    let mut inner = |term| template(overlap, term, holes);
    match &*overlap.resolved(term) {
        Term::Literal(literal) => Expr::Literal(literal.clone()),
        Term::Array(items) => Expr::Array(items.iter().map(inner).collect()),
        Term::Object(fields) => {
            let field = |(key, value)| (Expr::Literal(Clone::clone(key)), inner(value));
            Expr::Object(fields.iter().map(field).collect())
        }
        Term::Hole(hole) => {
            let met = holes.iter().position(|met| met == hole);
            let place = met.unwrap_or(holes.len());
            holes.extend(met.is_none().then_some(*hole));
            Expr::Name(place as u32 + 1)
        }
    }
}

/// Whether a pattern matches a value: a name is what it meets first, or its known value.
fn matches(pattern: &Expr, value: &Rc<Value>, known: &mut Known) -> bool {
    match (pattern, &**value) {
        (Expr::Underscore, _) => true,
        (Expr::Name(name), _) => equal(known.entry(*name).or_insert_with(|| value.clone()), value),
        (Expr::Literal(one), Value::Literal(other)) => one == other,
        (Expr::Array(items), Value::Array(values)) => {
            let mut pairs = items.iter().zip(values);
            items.len() == values.len() && pairs.all(|(item, value)| matches(item, value, known))
        }
        (Expr::Object(fields), Value::Object(values)) => {
            let mut field = |(key, inner): &(Expr, Expr)| {
                let under = |(own, _): &&(_, _)| matches!(key, Expr::Literal(key) if key == own);
                values.iter().find(under).is_some_and(|(_, value)| matches(inner, value, known))
            };
            fields.len() == values.len() && fields.iter().all(&mut field)
        }
        _ => false,
    }
}

#[cfg(test)]
mod tests {
    use super::*;
    use crate::matching::exhaustive::for_each_case;
    use crate::matching::expected::{expected, Expected};

    #[test]
    fn the_matcher_agrees_with_one_that_tries_all_fillings() {
        let (mut number, mut matched) = (0, 0);
        for_each_case(|case| {
            number += 1;
            if number % 101 != 0 {
                return;
            }
            let Expected::Ran(ran) = expected(&case) else { panic!("it runs") };
            let known = known(&case).into_iter().map(|(name, node)| (name, held(&case, node)));
            let is_matched =
                matches(&ran.pattern, &held(&case, case.value()), &mut known.collect());
            assert_eq!(is_matched, !ran.fillings.is_empty());
            matched += u64::from(is_matched);
        });
        assert!(matched > 100);
    }

    #[test]
    fn other_values_than_the_instances_contradict() {
        let mut exhaustive = Exhaustive::default();
        let small = |text: &str| Small { pattern: Tree::name(text), listed: [0; 2] };
        let one = Small { pattern: Tree::Number(1), listed: [0; 2] };
        let pair = pair([&small("x"), &one]);
        let [all, ones] = [&small("_"), &one].map(|small| exhaustive.matched(small));
        exhaustive.judge(&pair, &ones);
        assert!(exhaustive.contradictions.is_empty() && exhaustive.overlapping == 1);
        exhaustive.judge(&pair, &all);
        exhaustive.judge(&pair, &Bits(vec![0; ones.0.len()]));
        assert_eq!(exhaustive.contradictions.len(), 2);
    }
}
