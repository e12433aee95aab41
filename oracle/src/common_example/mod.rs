//! A common example of two patterns (document 02, slip 13), by running: against a second reading of
//! the request, word for word; each example is run through both patterns by the library itself.

pub mod case;
pub mod comparison;
pub mod entry;
pub mod exhaustive;
pub mod generate;
pub mod reading;
pub mod tally;
#[cfg(test)]
mod tests;
pub mod writing;
