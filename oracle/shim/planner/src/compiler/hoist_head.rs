//! Of hoist.rs only the impl below, copied by oracle/build; these two lines are ours.

use super::destructuring_planner::{ScopingMode, VariableBindingContext};
use crate::compiler::context::ScopeContext;

