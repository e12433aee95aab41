//! The Rust's scope, made from the marks of a sheet.

use super::tables::Name;
use super::texts::Texts;
use planner::compiler::context::ScopeContext;
use planner::Rc;
use std::collections::BTreeSet;

const BOUND: u32 = 1;
const BOUND_IN_THIS_SCOPE: u32 = 2;
const UNBOUND: u32 = 4;
const LOCAL: u32 = 8;
const GLOBAL: u32 = 16;

pub fn scope(names: &[Name], texts: &Texts, scheduler: bool) -> ScopeContext {
    let marked = |mark| -> BTreeSet<String> {
        let names = names.iter().zip(texts.names());
        let with_mark = names.filter(|(name, _)| name.marks & mark != 0);
        with_mark.map(|(_, text)| text.to_string()).collect()
    };
    ScopeContext {
        bound_vars: marked(BOUND),
        current_scope_bound_vars: marked(BOUND_IN_THIS_SCOPE),
        unbound_vars: marked(UNBOUND),
        local_vars: marked(LOCAL),
        module_globals: Some(Rc::new(marked(GLOBAL))),
        has_scheduler_scope: scheduler,
        ..ScopeContext::new()
    }
}
