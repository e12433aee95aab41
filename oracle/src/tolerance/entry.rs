//! The program under test: the run with tolerance of crate c_calls, where its library was linked.

use super::case::Measured;

/// Runs a case on its list, a plan buffer and words for the answer, and returns the answer's number.
pub type Run = fn(&Measured, &mut [u32], &mut [u32], &mut [u32]) -> u32;

pub const ALWAYS: u32 = 0;
pub const NEVER: u32 = 100;
pub const SOMETIMES: u32 = 101;

#[cfg(run_linked)]
#[rustfmt::skip]
fn ran(asked: &Measured, values: &mut [u32], plan: &mut [u32], answer: &mut [u32]) -> u32 {
    let Measured { case, lowest, highest, .. } = asked;
    crate::c_calls::teluddru_run_with_tolerance(
        &mut case.words(), &mut case.marks.clone(),
        case.scheduler, case.scoping, case.pattern(), case.value(),
        values, &mut lowest.clone(), &mut highest.clone(), plan, answer,
    )
}

#[cfg(run_linked)]
pub const LINKED: Option<Run> = Some(ran);
#[cfg(not(run_linked))]
pub const LINKED: Option<Run> = None;
