//! Which parts of two expressions the Rust held against each other: it names one of the two alone.

use super::expr::{last_fields, literal_key, Field};
use super::layout::Layout;
use super::listing::Entry;
use planner::ast::{Expr, ExprRef};
use planner::compiler::destructuring_planner::DestructuringPlan;
use std::slice::Iter;

/// The part of `pattern` that was held against the node `value_node` of `value`.
pub fn partner_of(pattern: &ExprRef, value: &ExprRef, value_node: u32) -> Option<u32> {
    if value.eidx() == value_node {
        return Some(pattern.eidx());
    }
    let parts = partners(pattern, value);
    parts.into_iter().find_map(|(pattern, value)| partner_of(pattern, value, value_node))
}

/// The items or the fields of equal key, in the order of the second: of a repeated key the first
/// has its last field alone.
fn partners<'a>(one: &'a ExprRef, other: &'a ExprRef) -> Vec<(&'a ExprRef, &'a ExprRef)> {
    match (one.as_ref(), other.as_ref()) {
        (Expr::Array { items: ones, .. }, Expr::Array { items: others, .. }) => {
            ones.iter().zip(others).collect()
        }
        (Expr::Object { fields: ones, .. }, Expr::Object { fields: others, .. }) => {
            let ones = last_fields(ones);
            let partner = |other: &'a Field| {
                let one = ones.get(literal_key(&other.1)?)?;
                Some((&one.2, &other.2))
            };
            others.iter().filter_map(partner).collect()
        }
        _ => Vec::new(),
    }
}

type Pair = (ExprRef, DestructuringPlan);

/// Lays the pairs of an assignment out. The two sides share no expression, so a pair's value tells
/// its side, and the pattern is what stands across from it.
pub fn lay_out_pairs(left: &ExprRef, right: &ExprRef, pairs: &[Pair]) -> Vec<Entry> {
    let mut walk = Walk { pairs: pairs.iter(), layout: Layout::default() };
    walk.enter(left, right);
    assert!(walk.pairs.next().is_none(), "a pair that the walk did not meet");
    walk.layout.entries
}

struct Walk<'a> {
    pairs: Iter<'a, Pair>,
    layout: Layout,
}

impl Walk<'_> {
    fn enter(&mut self, left: &ExprRef, right: &ExprRef) {
        let (value, plan) = self.pairs.as_slice().first().expect("a pair for every part");
        let pattern = match value {
            value if value == right => left,
            value if value == left => right,
            _ => {
                let parts = partners(left, right).into_iter();
                return parts.for_each(|(left, right)| self.enter(left, right));
            }
        };
        self.pairs.next();
        self.layout.pair(value, plan, pattern);
    }
}
