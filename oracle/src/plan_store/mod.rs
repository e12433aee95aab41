//! Document 02, request 11, by running: histories of calls of the plan store, held against a reading of
//! the text alone (`model`) and, word for word, against the documented layout (`layout`). Words that
//! the calls did not give are asked from outside which store they behave like (`found`).

pub mod comparison;
pub mod entry;
mod expected;
mod found;
mod layout;
pub mod model;
mod step;
pub mod tally;
#[cfg(test)]
mod tests;
