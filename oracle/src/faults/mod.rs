//! Which rule of the tables is broken, and where: the call held against a second reading, on tables
//! with a word or a few changed.

pub mod calls;
pub mod comparison;
pub mod generate;
pub mod reading;
#[cfg(test)]
mod tests;
