//! Plans of the Rust as plan entries. The Rust's plan does not name every node, so a plan is read
//! beside the pattern that it was made from, and the written positions are the pattern's.

use super::expr::{last_fields, Field};
use super::listing::Entry;
use planner::ast::{Expr, ExprRef};
use planner::compiler::destructuring_planner::DestructuringPlan;
use planner::value::Value;
use std::collections::BTreeMap;

mod kind {
    pub const BIND: u32 = 1;
    pub const IGNORE: u32 = 2;
    pub const COMPARE_EXPRESSION: u32 = 3;
    pub const COMPARE_LITERAL: u32 = 4;
    pub const ARRAY: u32 = 5;
    pub const OBJECT: u32 = 6;
    pub const PAIR: u32 = 7;
}

/// How a plan stands under its parent: the key's node or 0, and the written position.
#[derive(Clone, Copy)]
struct Place {
    key: u32,
    position: u32,
}

const ROOT: Place = Place { key: 0, position: 0 };

/// A field's position counts all fields as written, lost and computed ones too.
fn place_in(fields: &[Field], field: &Field) -> Place {
    let before = fields.iter().take_while(|other| !std::ptr::eq(*other, field)).count();
    Place { key: field.1.eidx(), position: before as u32 + 1 }
}

#[derive(Default)]
pub struct Layout {
    pub entries: Vec<Entry>,
}

impl Layout {
    pub fn plan(&mut self, plan: &DestructuringPlan, pattern: &ExprRef) {
        self.part(ROOT, plan, pattern);
    }

    pub fn pair(&mut self, value: &ExprRef, plan: &DestructuringPlan, pattern: &ExprRef) {
        self.push(kind::PAIR, value.eidx(), 1, ROOT);
        self.part(Place { key: 0, position: 1 }, plan, pattern);
    }

    fn push(&mut self, kind: u32, node: u32, children: usize, Place { key, position }: Place) {
        self.entries.push(Entry { kind, node, children: children as u32, key, position });
    }

    fn part(&mut self, place: Place, plan: &DestructuringPlan, pattern: &ExprRef) {
        let node = pattern.eidx();
        match (plan, pattern.as_ref()) {
            (DestructuringPlan::Var(span), _) => {
                assert_eq!(span.node, node);
                self.push(kind::BIND, node, 0, place);
            }
            (DestructuringPlan::Ignore, _) => self.push(kind::IGNORE, node, 0, place),
            (DestructuringPlan::EqualityExpr(expr), _) => {
                assert_eq!(expr.eidx(), node);
                self.push(kind::COMPARE_EXPRESSION, node, 0, place);
            }
            (DestructuringPlan::EqualityValue(_), _) => {
                self.push(kind::COMPARE_LITERAL, node, 0, place);
            }
            (DestructuringPlan::Array { element_plans }, Expr::Array { items, .. }) => {
                assert_eq!(element_plans.len(), items.len());
                self.push(kind::ARRAY, node, items.len(), place);
                for ((plan, item), position) in element_plans.iter().zip(items).zip(1..) {
                    self.part(Place { key: 0, position }, plan, item);
                }
            }
            (
                DestructuringPlan::Object { field_plans, dynamic_fields },
                Expr::Object { fields, .. },
            ) => {
                self.push(kind::OBJECT, node, field_plans.len() + dynamic_fields.len(), place);
                self.fields(field_plans, dynamic_fields, fields);
            }
            _ => panic!("the plan of node {node} has not its pattern's shape: {plan:?}"),
        }
    }

    fn fields(
        &mut self,
        literal: &BTreeMap<Value, DestructuringPlan>,
        computed: &[(ExprRef, DestructuringPlan)],
        fields: &[Field],
    ) {
        let last = last_fields(fields);
        assert_eq!(last.len(), literal.len());
        for ((key, plan), (pattern_key, field)) in literal.iter().zip(last) {
            assert_eq!(key, pattern_key);
            self.part(place_in(fields, field), plan, &field.2);
        }
        let mut others = fields.iter();
        for (key, plan) in computed {
            let field = others.find(|field| field.1 == *key).expect("a field of the pattern");
            self.part(place_in(fields, field), plan, &field.2);
        }
    }
}
