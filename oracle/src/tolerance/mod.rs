//! A run with tolerance (document 02, slip 4), by running: against every choice of small ranges,
//! each run by the library itself, and against a second reading for ranges of any width.

pub mod case;
pub mod choices;
pub mod comparison;
pub mod entry;
pub mod generate;
pub mod reading;
pub mod tally;
#[cfg(test)]
mod tests;
