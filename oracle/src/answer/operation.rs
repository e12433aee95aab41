//! What the Rust returned, as an answer of document 01.

use super::layout::Layout;
use super::listing::{Outcome, Plan, Refusal};
use super::partners::{lay_out_pairs, partner_of};
use super::ready::{Planned, Ready, SECOND};
use planner::ast::{Expr, ExprRef};
use planner::compiler::destructuring_planner::{
    AssignmentPlan, BindingPlan, BindingPlannerError, DestructuringPlan, WildcardSide,
};
use planner::lexer::Span;

/// The entries that a sheet's plan buffer has space for.
pub const CAPACITY: usize = 1536;

pub fn outcome(ready: &Ready, planned: Planned) -> Outcome {
    let plan = match planned {
        Planned::Pattern(plan) => {
            single(0, &plan.expect("a pattern plan always exists"), &ready.first)
        }
        Planned::Binding(Ok(plan)) => laid_out(ready, &plan),
        Planned::Binding(Err(error)) => return Err(refused(ready, error)),
    };
    match plan.entries.len() {
        0..=CAPACITY => Ok(plan),
        needed => Err(Refusal::new(6).with_counts([needed as u32, 0])),
    }
}

fn laid_out(ready: &Ready, plan: &BindingPlan) -> Plan {
    match plan {
        BindingPlan::LoopIndex { destructuring_plan, .. }
        | BindingPlan::Parameter { destructuring_plan, .. } => {
            single(0, destructuring_plan, &ready.first)
        }
        BindingPlan::SomeIn { key_plan, value_plan, .. } => {
            let mut layout = Layout::default();
            if let (Some(plan), Some(key)) = (key_plan, &ready.key) {
                layout.plan(plan, key);
            }
            layout.plan(value_plan, &ready.first);
            Plan { form: ready.key.is_some().into(), side: 0, entries: layout.entries }
        }
        BindingPlan::Assignment { plan } => assigned(plan, &ready.first, ready.second()),
    }
}

fn single(form: u32, plan: &DestructuringPlan, pattern: &ExprRef) -> Plan {
    let mut layout = Layout::default();
    layout.plan(plan, pattern);
    Plan { form, side: 0, entries: layout.entries }
}

fn assigned(plan: &AssignmentPlan, left: &ExprRef, right: &ExprRef) -> Plan {
    let empty = |form, side| Plan { form, side, entries: Vec::new() };
    match plan {
        AssignmentPlan::ColonEquals { lhs_plan, .. } => single(1, lhs_plan, left),
        AssignmentPlan::EqualsBindLeft { lhs_plan, .. } => single(2, lhs_plan, left),
        AssignmentPlan::EqualsBindRight { rhs_plan, .. } => single(3, rhs_plan, right),
        AssignmentPlan::EqualsBothSides { element_pairs, .. } => {
            Plan { form: 4, side: 0, entries: lay_out_pairs(left, right, element_pairs) }
        }
        AssignmentPlan::EqualityCheck { .. } => empty(5, 0),
        AssignmentPlan::WildcardMatch { wildcard_side, .. } => match wildcard_side {
            WildcardSide::Lhs => empty(6, 1),
            WildcardSide::Rhs => empty(6, 2),
            WildcardSide::Both => empty(6, 3),
        },
    }
}

/// The node of the pattern's object that was held against a value's object.
fn partner(ready: &Ready, value: &Span) -> Option<u32> {
    let (first, second) = (&ready.first, ready.second());
    match (second.as_ref(), value.root) {
        (Expr::Array { items, .. }, SECOND) if ready.is_some_in() => {
            items.iter().find_map(|item| partner_of(first, item, value.node))
        }
        (_, SECOND) => partner_of(first, second, value.node),
        _ => partner_of(second, first, value.node),
    }
}

/// The numbers of the Rust's errors.
fn refused(ready: &Ready, error: BindingPlannerError) -> Refusal {
    use BindingPlannerError::*;
    let at = |number, span: Span| Refusal::at(number, span.node);
    let counts = |one: usize, other: usize| [one as u32, other as u32];
    match error {
        ColonEqualsRequiresBindableLeft { span } => at(11, span),
        ArraySizeMismatch { left_size, right_size, span } => {
            at(12, span).with_counts(counts(left_size, right_size))
        }
        ArrayLengthMismatch { expected, actual, span } => {
            at(13, span).with_counts(counts(expected, actual))
        }
        ObjectLiteralKeysMismatch { span, .. } => {
            let object = partner(ready, &span).expect("a pattern object for the value's object");
            at(14, span).with_counts([object, 0])
        }
        ObjectFieldCountMismatch { left_count, right_count, span } => {
            at(15, span).with_counts(counts(left_count, right_count))
        }
        ObjectKeyNotFound { span, .. } => at(16, span),
        VariableAlreadyDefined { span, .. } => at(17, span),
        IncompatibleDestructuringPatterns { span } => at(18, span),
        FailedToCreateDestructuringPlan { .. } => panic!("document 01: a plan always exists"),
    }
}
