//! The structure check of a pattern and a value, refusals 13 and 14. Written from documents 01 and
//! 02, and not from the crates.

use super::super::expr::{last_fields, literal_key, Field};
use super::super::listing::Refusal;
use planner::ast::{Expr, ExprRef};
use planner::value::Value;
use std::collections::BTreeMap;

#[derive(Clone, Copy, Debug, PartialEq)]
pub enum Structure {
    Match,
    Unknown,
    Mismatch(Refusal),
}

use Structure::{Match, Mismatch, Unknown};

/// What two readings differ in; lengths and key checks are the same in all.
pub struct Reading {
    /// The fields of two objects whose key texts agree, as they are met.
    pub meet: Meet,
    /// The structure of an array or an object from those of its items, as they are met.
    pub join: Join,
}

/// Parts of pattern and value that are held against each other; None for a field without a partner.
pub type Met<'a> = Option<(&'a ExprRef, &'a ExprRef)>;
pub type Meet = for<'a> fn(BTreeMap<&'a Value, &'a Field>, &'a [Field]) -> Vec<Met<'a>>;
pub type Join = fn(&mut dyn Iterator<Item = Structure>) -> Structure;

/// Document 02, slip 10: an unknown item doesn't end an array or object.
pub const CAREFUL: Reading = Reading { meet: in_plan_order, join: look_past_unknown };

impl Reading {
    pub fn check(&self, pattern: &ExprRef, value: &ExprRef) -> Structure {
        match (pattern.as_ref(), value.as_ref()) {
            (Expr::Array { items: ones, .. }, Expr::Array { items: others, .. }) => {
                if ones.len() != others.len() {
                    let lengths = [ones.len() as u32, others.len() as u32];
                    return Mismatch(Refusal::at(13, value.eidx()).with_counts(lengths));
                }
                let items = ones.iter().zip(others);
                (self.join)(&mut items.map(|(one, other)| self.check(one, other)))
            }
            (Expr::Object { fields: ones, .. }, Expr::Object { fields: others, .. }) => {
                let mismatch = Refusal::at(14, value.eidx()).with_counts([pattern.eidx(), 0]);
                self.objects(ones, others, mismatch)
            }
            _ => Unknown,
        }
    }

    fn objects(&self, ones: &[Field], others: &[Field], mismatch: Refusal) -> Structure {
        let literal = last_fields(ones);
        let computed = ones.iter().any(|field| literal_key(&field.1).is_none());
        if ones.is_empty() {
            return Match;
        }
        if literal.is_empty() {
            return Unknown;
        }
        let keys = others.iter().filter_map(|field| literal_key(&field.1));
        if texts(literal.keys().copied()) != texts(keys) {
            return Mismatch(mismatch);
        }
        let met = (self.meet)(literal, others).into_iter();
        let checked = met.map(|met| met.map_or(Unknown, |(one, other)| self.check(one, other)));
        (self.join)(&mut checked.chain(computed.then_some(Unknown)))
    }

    /// The refusal of a some-in pattern: none where an item of the collection fits, else the first.
    pub fn check_items(&self, pattern: &ExprRef, collection: &ExprRef) -> Option<Refusal> {
        let Expr::Array { items, .. } = collection.as_ref() else { return None };
        let refusals = items.iter().map(|item| self.check(pattern, item).refusal());
        let all_refused: Option<Vec<Refusal>> = refusals.collect();
        all_refused.and_then(|refusals| refusals.first().copied())
    }
}

impl Structure {
    pub fn refusal(self) -> Option<Refusal> {
        match self {
            Mismatch(refusal) => Some(refusal),
            Match | Unknown => None,
        }
    }
}

/// The texts of keys, sorted, repeats kept.
fn texts<'a>(keys: impl Iterator<Item = &'a Value>) -> Vec<String> {
    let text = |key: &Value| match key {
        Value::String(text) => text.to_string(),
        other => other.to_string(),
    };
    let mut texts: Vec<String> = keys.map(text).collect();
    texts.sort();
    texts
}

/// The pattern's literal fields in key order, each with all value fields of its key as written.
pub fn in_plan_order<'a>(
    ones: BTreeMap<&'a Value, &'a Field>,
    others: &'a [Field],
) -> Vec<Met<'a>> {
    let mut all = Vec::new();
    for (key, one) in ones {
        let partners = others.iter().filter(|other| literal_key(&other.1) == Some(key));
        let mut met: Vec<_> = partners.map(|other| Some((&one.2, &other.2))).collect();
        if met.is_empty() {
            met.push(None);
        }
        all.extend(met);
    }
    all
}

/// The first mismatch; else unknown if some item is.
pub fn look_past_unknown(items: &mut dyn Iterator<Item = Structure>) -> Structure {
    let mut joined = Match;
    for item in items {
        match item {
            Mismatch(_) => return item,
            Unknown => joined = Unknown,
            Match => {}
        }
    }
    joined
}
