//! A rule body that is asked for.

use crate::sheets::Draft;

/// Marks of a scope, of as many names as a table has at most.
pub const MARKS: usize = 128;
/// Words of a line: operation, first, second, key.
pub const LINE_WORDS: usize = 4;

#[derive(Clone, Debug)]
pub struct Case {
    /// The tables alone: its operation, roots and marks say nothing.
    pub draft: Draft,
    /// The scope's marks, of which 128 count.
    pub marks: Vec<u8>,
    pub scheduler: u32,
    /// The words of the lines, sound or not.
    pub lines: Vec<u32>,
    /// The length of the plan buffer, in words.
    pub room: usize,
    /// The number of words lent for the answer.
    pub answer_room: usize,
}
