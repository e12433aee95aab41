//! The program under test: the names report of crate c_calls, where its library was linked.

use crate::matching::case::Case;

/// Reports the names of a case into a list, with words for the answer, and returns its number.
pub type Report = fn(&Case, &mut [u32], &mut [u32]) -> u32;

#[cfg(run_linked)]
fn reported(case: &Case, list: &mut [u32], answer: &mut [u32]) -> u32 {
    let (tables, marks) = (&mut case.words(), &mut case.marks.clone());
    let call = crate::c_calls::teluddru_names_report;
    call(tables, marks, case.scheduler, case.scoping, case.pattern(), list, answer)
}

#[cfg(run_linked)]
pub const LINKED: Option<Report> = Some(reported);
#[cfg(not(run_linked))]
pub const LINKED: Option<Report> = None;
