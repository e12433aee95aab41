//! The program under test: the rule body call of crate c_calls, where its library was linked.

use super::case::Case;

/// Plans a body from its marks into a plan buffer, with words for the answer, and returns the
/// answer's number.
pub type PlanBody = fn(&Case, &mut [u8], &mut [u32], &mut [u32]) -> u32;

#[cfg(run_linked)]
fn planned(case: &Case, marks: &mut [u8], plan: &mut [u32], answer: &mut [u32]) -> u32 {
    let tables = &mut crate::parties::words::Words::of(&case.draft, &[]);
    let lines = &mut case.lines.clone();
    crate::c_calls::teluddru_plan_body(tables, marks, case.scheduler, lines, plan, answer)
}

#[cfg(run_linked)]
pub const LINKED: Option<PlanBody> = Some(planned);
#[cfg(not(run_linked))]
pub const LINKED: Option<PlanBody> = None;
