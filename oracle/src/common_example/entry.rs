//! The program under test: the common example of crate c_calls, where its library was linked.

use super::case::Pair;

/// Gives an example in words for its nodes and its child entries, and returns the answer's number.
/// The pair is lent to be read; what the call makes of it is seen.
pub type Call = fn(&mut Pair, &mut [u32], &mut [u32], &mut [u32]) -> u32;

pub const FOUND: u32 = 0;
pub const NONE: u32 = 100;
pub const TOO_LARGE: u32 = 36;

/// The ranges that are only read are the pair's own, or are put back.
#[cfg(run_linked)]
#[rustfmt::skip]
fn given(pair: &mut Pair, nodes: &mut [u32], children: &mut [u32], answer: &mut [u32]) -> u32 {
    let [first, second] = &mut pair.sides;
    let mut tables = first.words();
    let number = crate::c_calls::teluddru_common_example(
        &mut tables,
        &mut first.marks, first.scheduler, first.scoping, first.draft.roots[0], &mut first.values,
        &mut second.marks, second.scheduler, second.scoping, second.draft.roots[0], &mut second.values,
        nodes, children, answer,
    );
    tables.put_back(&mut first.draft);
    number
}

#[cfg(run_linked)]
pub const LINKED: Option<Call> = Some(given);
#[cfg(not(run_linked))]
pub const LINKED: Option<Call> = None;
