//! The careful reading of document 02, slip 10, chosen by scoping 3 and 4: the Rust's answer with
//! another structure check. The Rust has no such reading; this one is ours.

mod structure;
#[cfg(test)]
mod tests;

use super::listing::{Outcome, Refusal};
use super::operation;
use super::ready::{Planned, Ready, SECOND};
use planner::ast::ExprRef;
use planner::compiler::destructuring_planner::{AssignmentPlan, BindingPlan, BindingPlannerError};
use structure::{Reading, CAREFUL};

/// What the present reading answers where the careful one refuses by structure.
#[derive(Clone, Copy, Debug, PartialEq, Eq, PartialOrd, Ord)]
pub enum Present {
    Same,
    /// 13 or 14 as well, of another part.
    Elsewhere,
    Plans,
}

/// The Rust's answer with the careful structure check in the place of its own.
pub fn outcome(ready: &Ready, planned: Planned) -> (Outcome, Option<Present>) {
    let careful = by_structure(&CAREFUL, ready, &planned);
    let rust = operation::outcome(ready, planned);
    match careful {
        Some(refusal) => (Err(refusal), Some(present(refusal, &rust))),
        None => {
            let refused = matches!(rust, Err(Refusal { number: 13 | 14, .. }));
            assert!(!refused, "document 02: it refuses everything the present reading refuses");
            (rust, None)
        }
    }
}

fn present(careful: Refusal, rust: &Outcome) -> Present {
    match rust {
        Err(refusal) if *refusal == careful => Present::Same,
        Err(_) => Present::Elsewhere,
        Ok(_) => Present::Plans,
    }
}

/// The structure check stands behind every refusal of the Rust's but its own 13 and 14.
fn by_structure(reading: &Reading, ready: &Ready, planned: &Planned) -> Option<Refusal> {
    let (pattern, value) = held_together(ready, planned)?;
    if ready.is_some_in() {
        reading.check_items(pattern, value)
    } else {
        reading.check(pattern, value).refusal()
    }
}

/// Pattern and value, where the Rust came as far as its structure check.
fn held_together<'a>(ready: &'a Ready, planned: &Planned) -> Option<(&'a ExprRef, &'a ExprRef)> {
    use AssignmentPlan::{ColonEquals, EqualsBindLeft, EqualsBindRight};
    use BindingPlannerError::{ArrayLengthMismatch, ObjectLiteralKeysMismatch};
    let Planned::Binding(bound) = planned else { return None };
    let second_is_value = match bound {
        Ok(BindingPlan::SomeIn { .. }) => true,
        Ok(BindingPlan::Assignment { plan: ColonEquals { .. } | EqualsBindLeft { .. } }) => true,
        Ok(BindingPlan::Assignment { plan: EqualsBindRight { .. } }) => false,
        Err(ArrayLengthMismatch { span, .. } | ObjectLiteralKeysMismatch { span, .. }) => {
            span.root == SECOND
        }
        _ => return None,
    };
    let (first, second) = (&ready.first, ready.second());
    Some(if second_is_value { (first, second) } else { (second, first) })
}
