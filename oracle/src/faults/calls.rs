//! The program under test: `teluddru_table_fault` of crate c_calls, where its library was linked.

use super::generate::Case;

/// Fills in the answer's words and returns its number.
pub type TableFault = fn(&Case, &mut [u32]) -> u32;

#[cfg(run_linked)]
pub const LINKED: Option<TableFault> = Some(linked);
#[cfg(not(run_linked))]
pub const LINKED: Option<TableFault> = None;

#[cfg(run_linked)]
fn linked(case: &Case, answer: &mut [u32]) -> u32 {
    let Case { mut words, mut marks } = case.clone();
    crate::c_calls::teluddru_table_fault(&mut words, &mut marks, answer)
}
