//! Document 02, slip 8: two parties over one set of tables, each with a scope of its own.
//! Additions to the name table are held against a second reading; histories of two parties are
//! carried out twice, the second time with other calls of the other party.

pub mod adding;
pub mod additions;
pub mod calls;
pub mod draw;
pub mod expected;
pub mod histories;
pub mod history;
#[cfg(test)]
mod tests;
pub mod words;
