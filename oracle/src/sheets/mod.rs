//! Making sheets: a rule's expressions as trees, and trees as the tables of a sheet.

pub mod draft;
mod encode;
pub mod limits;
mod parse;
mod tree;

pub use draft::Draft;
pub use encode::{encode, encode_lines};
pub use parse::rule;
pub use tree::{Operation, Rule, Tree};
