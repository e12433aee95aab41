//! Rule bodies, held against a second reading of document 02, slip 14. It is written from the
//! documents and not from the crates; each line's own plan and refusal is the Rust's, from the
//! scope as it then is.

pub mod case;
pub mod comparison;
pub mod entry;
pub mod expected;
pub mod generate;
pub(crate) mod plan;
pub(crate) mod reading;
pub(crate) mod sides;
pub mod tally;
