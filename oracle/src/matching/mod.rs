//! Run, held against a matcher that tries all fillings. The matcher is written from document 01,
//! "Run", and not from the crates; the table check is the one of the sheets, and the plan in the
//! buffer is the Rust's plan of the pattern.

pub mod case;
pub mod comparison;
pub mod entry;
pub mod exhaustive;
pub mod expected;
pub(crate) mod filling;
pub mod generate;
pub(crate) mod reading;
pub mod tally;
pub(crate) mod value;
