//! What the Rust is called with, made from a sheet, and the call.

use super::expr::Builder;
use super::listing::Refusal;
use super::scope::scope;
use super::sheet::Sheet;
use super::texts::Texts;
use planner::ast::{AssignOp, ExprRef};
use planner::compiler::context::ScopeContext;
use planner::compiler::destructuring_planner::{
    create_assignment_binding_plan, create_destructuring_plan, create_loop_index_binding_plan,
    create_parameter_binding_plan, create_some_in_binding_plan, BindingPlan, DestructuringPlan,
    Result as Bound, ScopingMode,
};

/// The roots of an operation, as spans tell them.
pub const FIRST: u32 = 1;
pub const SECOND: u32 = 2;
const KEY: u32 = 3;

/// An operation's expressions and its scope.
pub struct Ready {
    operation: u32,
    scoping: ScopingMode,
    scope: ScopeContext,
    pub first: ExprRef,
    second: Option<ExprRef>,
    pub key: Option<ExprRef>,
}

/// What the Rust returns.
pub enum Planned {
    Pattern(Option<DestructuringPlan>),
    Binding(Bound<BindingPlan>),
}

impl Ready {
    /// Of a sheet whose tables are checked.
    pub fn new(sheet: &Sheet) -> Result<Self, Refusal> {
        let tables = &sheet.tables;
        let texts = Texts::new(tables);
        // An expression made twice shares nothing with itself.
        let expr = |root, number| {
            let builder = Builder { tables, texts: &texts, root };
            builder.expr(number).ok_or(Refusal::new(5))
        };
        let two_sided = (2..=4).contains(&sheet.operation);
        let keyed = sheet.operation == 4 && sheet.key != 0;
        Ok(Self {
            operation: sheet.operation,
            scoping: match sheet.scoping {
                1 | 3 => ScopingMode::RespectParent,
                _ => ScopingMode::AllowShadowing,
            },
            first: expr(FIRST, sheet.first)?,
            second: two_sided.then(|| expr(SECOND, sheet.second)).transpose()?,
            key: keyed.then(|| expr(KEY, sheet.key)).transpose()?,
            scope: scope(&tables.names, &texts, sheet.scheduler),
        })
    }

    /// The Rust's call, and nothing else.
    pub fn plan(&self) -> Planned {
        let Self { scope, scoping, first, key, .. } = self;
        Planned::Binding(match self.operation {
            1 => return Planned::Pattern(create_destructuring_plan(first, scope, *scoping)),
            2 => create_assignment_binding_plan(AssignOp::ColEq, first, self.second(), scope),
            3 => create_assignment_binding_plan(AssignOp::Eq, first, self.second(), scope),
            4 => create_some_in_binding_plan(key, first, self.second(), scope),
            5 => create_loop_index_binding_plan(first, scope),
            _ => create_parameter_binding_plan(first, scope, *scoping),
        })
    }

    pub fn is_some_in(&self) -> bool {
        self.operation == 4
    }

    pub fn second(&self) -> &ExprRef {
        self.second.as_ref().expect("an operation of two sides")
    }
}
