//! Whether some values make two sides equal, by trying fillings of both.
//!
//! Which values suffice? If some fillings make the sides equal, there are some in which each name
//! and underscore has a value that equality forces upon it, and all that nothing forces have one
//! value that is no part of the sides. A forced value stands opposite a part of the other side, or
//! opposite one that a repeated name carries over: so it is a part of a side, with the names and
//! underscores in it filled in turn. The right side is filled with the value that is no part and
//! with such parts, filled so round by round: with the value that is no part, then with what came
//! out too. The left side is then held against the filled right one, and for that the parts of the
//! latter are enough. Larger sides may need more rounds, as `[x, [x]]` with `[[y], z]` needs two
//! for z: unification needs none, and the two have to agree on all small pairs.

use crate::matching::filling::{no_part, Blanks};
use crate::matching::reading::Expr;
use crate::matching::value::{equal, parts, Value};
use std::collections::BTreeMap;
use std::rc::Rc;

pub struct Trying {
    /// Whether some fillings make the sides equal; None if there are too many to try.
    pub found: Option<bool>,
    /// Pairs of fillings that were tried.
    pub fillings: u64,
}

/// How far to go.
pub struct Effort {
    /// How often parts are filled with parts.
    pub rounds: usize,
    /// At most so many values for the right side, and so many pairs of fillings.
    pub values: u64,
    pub fillings: u64,
}

pub fn try_fillings(left: &Expr, right: &Expr, effort: &Effort) -> Trying {
    let mut trying = Trying { found: None, fillings: 0 };
    let (one, other) = (blanks(left), blanks(right));
    let Some(universe) = universe(left, right, effort) else { return trying };
    for (_, value) in other.instances(&universe) {
        let mut candidates = parts(&proper(&value));
        candidates.push(no_part());
        let more = power(candidates.len(), one.count());
        if trying.fillings.saturating_add(more) > effort.fillings {
            return trying;
        }
        trying.fillings += more;
        if one.instances(&candidates).any(|(_, filled)| equal(&filled, &value)) {
            trying.found = Some(true);
            return trying;
        }
    }
    trying.found = Some(false);
    trying
}

/// The values that the right side's names and underscores are filled with, if there are not too
/// many.
fn universe(left: &Expr, right: &Expr, effort: &Effort) -> Option<Vec<Rc<Value>>> {
    let mut universe = vec![no_part()];
    let holes = blanks(right).count();
    if holes == 0 {
        return Some(universe);
    }
    let parts = parts_to_fill(left, right);
    for _ in 0..effort.rounds {
        let candidates = universe.clone();
        let instances = parts.iter().map(|part| power(candidates.len(), blanks(part).count()));
        if instances.sum::<u64>() > effort.values {
            return None;
        }
        for part in &parts {
            let values = blanks(part);
            values.instances(&candidates).for_each(|(_, value)| add(&mut universe, proper(&value)));
        }
    }
    (power(universe.len(), holes) <= effort.fillings).then_some(universe)
}

/// The parts of both sides; the whole left side only where it stands opposite a name or underscore.
fn parts_to_fill<'a>(left: &'a Expr, right: &'a Expr) -> Vec<&'a Expr> {
    let inside = inner(left).into_iter().chain(inner(right)).flat_map(below);
    let whole = is_hole(right).then_some(left);
    inside.chain(whole).filter(|part| !is_hole(part)).collect()
}

fn add(universe: &mut Vec<Rc<Value>>, value: Rc<Value>) {
    if !universe.iter().any(|own| equal(own, &value)) {
        universe.push(value);
    }
}

fn blanks(pattern: &Expr) -> Blanks<'_> {
    Blanks::new(pattern, BTreeMap::new())
}

fn power(base: usize, exponent: usize) -> u64 {
    (base as u64).saturating_pow(exponent as u32)
}

fn is_hole(expr: &Expr) -> bool {
    matches!(expr, Expr::Name(_) | Expr::Underscore)
}

fn inner(expr: &Expr) -> Vec<&Expr> {
    match expr {
        Expr::Array(items) => items.iter().collect(),
        Expr::Object(fields) => fields.iter().map(|(_, value)| value).collect(),
        _ => Vec::new(),
    }
}

/// The part and all parts in it.
fn below(expr: &Expr) -> Vec<&Expr> {
    std::iter::once(expr).chain(inner(expr).into_iter().flat_map(below)).collect()
}

/// The value that is equal and has no key twice: the first value under a key counts.
fn proper(value: &Rc<Value>) -> Rc<Value> {
    match &**value {
        Value::Literal(_) => value.clone(),
        Value::Array(items) => Rc::new(Value::Array(items.iter().map(proper).collect())),
        Value::Object(fields) => {
            let mut firsts = Vec::new();
            for (key, value) in fields {
                if firsts.iter().all(|(own, _)| own != key) {
                    firsts.push((key.clone(), proper(value)));
                }
            }
            Rc::new(Value::Object(firsts))
        }
    }
}
