//! Document 02, slip 12, by running: a shape refusal (12 to 16) of two sides means that no values
//! of their names and underscores make them equal. Each side has a filling of its own.

pub mod entry;
pub mod exhaustive;
pub mod generate;
pub mod question;
pub mod tally;
#[cfg(test)]
mod tests;
pub mod trial;
mod trying;
pub(crate) mod unification;
