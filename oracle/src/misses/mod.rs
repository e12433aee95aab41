//! Where a run misses, held against a second reading: whether it misses is the matcher's word, where
//! is a walk of its own over the nodes.

pub mod comparison;
pub mod entry;
pub mod reading;
pub mod tally;
#[cfg(test)]
mod tests;
