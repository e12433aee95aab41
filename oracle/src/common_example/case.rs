//! Two patterns of which a common example is asked for.

use super::writing::Written;
use crate::matching::case::Case;

#[derive(Clone, Debug, PartialEq)]
pub struct Pair {
    /// Both over the same tables; the pattern is the first root, and there is no value yet.
    pub sides: [Case; 2],
    /// The words lent for the value's nodes, for its child entries and for the answer.
    pub node_room: usize,
    pub child_room: usize,
    pub answer_room: usize,
}

impl Pair {
    pub fn has_one_root(&self) -> bool {
        self.sides[0].pattern() == self.sides[1].pattern()
    }

    /// The runs of each pattern on a value that is put behind the tables.
    pub fn runs_on(&self, value: &Written) -> [Case; 2] {
        self.sides.clone().map(|mut case| {
            case.draft.nodes.extend(&value.nodes);
            case.draft.children.extend(&value.children);
            case.draft.roots[1] = case.draft.nodes.len() as u32;
            case.room = 5 * case.draft.nodes.len();
            case
        })
    }
}
