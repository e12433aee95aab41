//! The published Rust planner behind the sheets of document 01, and what is compared with it.

pub mod answer;
pub mod bodies;
#[cfg(run_linked)]
pub mod c_calls;
pub mod common_example;
pub mod comparison;
pub mod faults;
pub mod generate;
pub mod matching;
pub mod misses;
pub mod parties;
pub mod plan_store;
pub mod refusals;
pub mod reporting;
pub mod selection;
pub mod sheets;
pub mod subject;
pub mod tally;
pub mod tolerance;
pub mod trials;
