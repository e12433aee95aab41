//! The names report, held against a second reading of documents 01 and 02: what the plan binds is
//! the Rust's, what is met and which names stand as computed keys is read off the pattern. The
//! patterns are those of the generated sheets, with sets, repeated and computed keys.

pub mod comparison;
pub mod entry;
pub mod expected;

use crate::generate::{draft, Random};
use crate::matching::case::Case;

/// The case of a number: the tables of a sheet, and a list that is too short at times. The list
/// stands in the place of a run's values.
pub fn case(seed: u64, number: u64) -> Case {
    let mut case = Case::new(draft(seed, number));
    let random = &mut Random::of_case(!seed, number);
    let names = case.draft.names.len();
    let length = match random.weighted(&[60, 30, 10]) {
        0 => names,
        1 => names + random.below(4),
        _ => names.saturating_sub(1),
    };
    case.values = vec![9; length];
    if random.chance(50) {
        case.answer_room = random.below(7);
    }
    case
}
