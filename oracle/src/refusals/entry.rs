//! The program under test: planning over tables of crate c_calls, where its library was linked.

use crate::matching::case::Case;

/// Plans the operation of a case's draft and returns the answer's number.
pub type Plan = fn(&Case) -> u32;

#[cfg(run_linked)]
fn planned(case: &Case) -> u32 {
    let operation = case.draft.operation;
    let [first, second, key] = case.draft.roots;
    let (scheduler, scoping) = (case.scheduler, case.scoping);
    let (plan, answer) = (&mut vec![0; case.room], &mut [0; 4]);
    let (tables, marks) = (&mut case.words(), &mut case.marks.clone());
    let call = crate::c_calls::teluddru_plan;
    call(tables, marks, operation, scheduler, scoping, first, second, key, 0, plan, answer)
}

#[cfg(run_linked)]
pub const LINKED: Option<Plan> = Some(planned);
#[cfg(not(run_linked))]
pub const LINKED: Option<Plan> = None;
