//! A line's plan or own refusal: the Rust's, from a scope's marks.

use super::case::{Case, MARKS};
use crate::answer::{answer, Entry, Outcome, ENTRY_WORDS};
use crate::sheets::Draft;

/// A sheet's operation and its roots.
#[derive(Clone, Copy, Debug)]
pub struct Line {
    pub operation: u32,
    pub first: u32,
    pub second: u32,
    pub key: u32,
}

#[derive(Debug)]
pub struct Plan {
    pub form: u32,
    pub side: u32,
    pub entries: Vec<Entry>,
}

/// The largest number of a sheet's column: as a root it is outside the nodes too.
const LARGEST: u32 = 999_999;

/// The line planned in the present reading, at version 0; or number, place and two counts.
pub fn plan(case: &Case, marks: &[u8; MARKS], line: Line) -> Result<Plan, [u32; 4]> {
    let outcome = answer(&sheet(case, marks, line).bytes()).outcome;
    let over_limit = matches!(&outcome, Err(refusal) if refusal.number == 1);
    if !over_limit && marks.iter().any(|&marks| marks > 31) {
        return Err([2, 0, 0, 0]);
    }
    let plan = own(outcome)?;
    if case.room / ENTRY_WORDS < plan.entries.len() {
        return Err([6, 0, plan.entries.len() as u32, 0]);
    }
    Ok(plan)
}

fn own(outcome: Outcome) -> Result<Plan, [u32; 4]> {
    match outcome {
        Ok(plan) => Ok(Plan { form: plan.form, side: plan.side, entries: plan.entries }),
        Err(refusal) => {
            let [one, other] = refusal.counts;
            Err([refusal.number, refusal.place, one, other])
        }
    }
}

/// A sheet has no marks above 31.
fn sheet(case: &Case, marks: &[u8; MARKS], line: Line) -> Draft {
    let marks = marks.iter().map(|&marks| u32::from(marks.min(31))).chain(std::iter::repeat(0));
    let names = case.draft.names.iter().zip(marks);
    Draft {
        operation: line.operation,
        scheduler: case.scheduler,
        scoping: 1,
        roots: [line.first, line.second, line.key].map(|root| root.min(LARGEST)),
        names: names.map(|(name, marks)| [name[0], name[1], marks]).collect(),
        ..case.draft.clone()
    }
}
