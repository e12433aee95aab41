//! The program under test: the calls of crate c_calls, where its library was linked.

use super::adding::Addition;
use crate::matching::case::Case;

/// Adds a name and returns the answer's number. The name table of the addition is written.
pub type AddName = fn(&mut Addition, &mut [u32]) -> u32;

/// What is planned: an operation on its roots.
#[derive(Clone, Copy, Debug)]
pub struct Planning {
    pub operation: u32,
    pub scoping: u32,
    pub roots: [u32; 3],
    pub version: u32,
}

/// What a party calls on the tables of a case, with the marks of the case as its scope.
pub struct Calls {
    pub add_name: AddName,
    /// Plan, answer.
    pub plan: fn(&Case, Planning, &mut [u32], &mut [u32]) -> u32,
    /// The marks are written; lines, plan, answer.
    pub body: fn(&mut Case, &[u32], &mut [u32], &mut [u32]) -> u32,
    /// Values, plan, answer.
    pub run: fn(&Case, &mut [u32], &mut [u32], &mut [u32]) -> u32,
    /// List, answer.
    pub report: fn(&Case, &mut [u32], &mut [u32]) -> u32,
}

#[cfg(run_linked)]
pub const LINKED: Option<Calls> = Some(Calls {
    add_name: linked::add_name,
    plan: linked::plan,
    body: linked::body,
    run: linked::run,
    report: linked::report,
});
#[cfg(not(run_linked))]
pub const LINKED: Option<Calls> = None;

#[cfg(run_linked)]
#[rustfmt::skip]
mod linked {
    use super::{Addition, Case, Planning};
    use crate::c_calls::{
        teluddru_add_name, teluddru_names_report, teluddru_plan, teluddru_plan_body, teluddru_run,
    };

    pub fn add_name(addition: &mut Addition, answer: &mut [u32]) -> u32 {
        let Addition { words, used, start, length } = addition;
        teluddru_add_name(words, *used, *start, *length, answer)
    }

    pub fn body(case: &mut Case, lines: &[u32], plan: &mut [u32], answer: &mut [u32]) -> u32 {
        let tables = &mut case.words();
        teluddru_plan_body(tables, &mut case.marks, case.scheduler, &mut lines.to_vec(), plan, answer)
    }

    pub fn plan(case: &Case, planning: Planning, plan: &mut [u32], answer: &mut [u32]) -> u32 {
        let Planning { operation, scoping, roots: [first, second, key], version } = planning;
        let (tables, marks) = (&mut case.words(), &mut case.marks.clone());
        teluddru_plan(tables, marks, operation, case.scheduler, scoping, first, second, key, version, plan, answer)
    }

    pub fn run(case: &Case, values: &mut [u32], plan: &mut [u32], answer: &mut [u32]) -> u32 {
        let (tables, marks) = (&mut case.words(), &mut case.marks.clone());
        teluddru_run(tables, marks, case.scheduler, case.scoping, case.pattern(), case.value(), values, plan, answer)
    }

    pub fn report(case: &Case, list: &mut [u32], answer: &mut [u32]) -> u32 {
        let (tables, marks) = (&mut case.words(), &mut case.marks.clone());
        teluddru_names_report(tables, marks, case.scheduler, case.scoping, case.pattern(), list, answer)
    }
}
