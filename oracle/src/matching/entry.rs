//! The program under test: the Run of crate c_calls, where its library was linked.

use super::case::Case;

/// Runs a case on its list, a plan buffer and words for the answer, and returns the answer's number.
pub type Run = fn(&Case, &mut [u32], &mut [u32], &mut [u32]) -> u32;

pub const MATCH: u32 = 0;
pub const NO_MATCH: u32 = 100;

#[cfg(run_linked)]
fn ran(case: &Case, values: &mut [u32], plan: &mut [u32], answer: &mut [u32]) -> u32 {
    let (tables, marks) = (&mut case.words(), &mut case.marks.clone());
    let (scheduler, scoping) = (case.scheduler, case.scoping);
    let call = crate::c_calls::teluddru_run;
    call(tables, marks, scheduler, scoping, case.pattern(), case.value(), values, plan, answer)
}

#[cfg(run_linked)]
pub const LINKED: Option<Run> = Some(ran);
#[cfg(not(run_linked))]
pub const LINKED: Option<Run> = None;
