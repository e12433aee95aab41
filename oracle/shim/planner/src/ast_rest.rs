
// From here on ours, appended by oracle/build: types that the published file names and lacks.

pub type ExprRef = Ref<Expr>;

#[derive(Debug)]
pub struct Query {
    pub span: Span,
    pub stmts: Vec<LiteralStmt>,
    pub qidx: u32,
}

impl Query {
    /// The oracle's queries have no statements.
    fn detach_children(&mut self, _pending: &mut Vec<OwnedAstNode>) {}
}

#[derive(Debug)]
pub struct LiteralStmt {
    pub literal: Literal,
    pub with_mods: Vec<WithModifier>,
}

#[derive(Debug)]
pub struct WithModifier {
    pub refr: Ref<Expr>,
    pub r#as: Ref<Expr>,
}

#[derive(Debug)]
pub enum Literal {
    SomeVars {
        vars: Vec<Span>,
    },
    SomeIn {
        key: Option<Ref<Expr>>,
        value: Ref<Expr>,
        collection: Ref<Expr>,
    },
    Expr {
        expr: Ref<Expr>,
    },
    NotExpr {
        expr: Ref<Expr>,
    },
    Every {
        domain: Ref<Expr>,
        query: Ref<Query>,
    },
}
