//! The program under test: the first miss of crate c_calls, where its library was linked.

use crate::matching::case::Case;

/// Tells of a case with its list, in words for the answer, and returns the answer's number.
pub type FirstMiss = fn(&Case, &mut [u32], &mut [u32]) -> u32;

#[cfg(run_linked)]
fn told(case: &Case, values: &mut [u32], answer: &mut [u32]) -> u32 {
    let (tables, marks) = (&mut case.words(), &mut case.marks.clone());
    let (scheduler, scoping) = (case.scheduler, case.scoping);
    let call = crate::c_calls::teluddru_first_miss;
    call(tables, marks, scheduler, scoping, case.pattern(), case.value(), values, answer)
}

#[cfg(run_linked)]
pub const LINKED: Option<FirstMiss> = Some(told);
#[cfg(not(run_linked))]
pub const LINKED: Option<FirstMiss> = None;
