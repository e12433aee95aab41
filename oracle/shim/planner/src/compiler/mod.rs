//! The module file of `compiler`, as far as the planner needs it.

pub mod context;
pub mod destructuring_planner;
mod hoist;
