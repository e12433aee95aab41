//! The Rust's expressions, made from checked tables.

use super::tables::{self, kind, Node, Tables};
use super::texts::Texts;
use planner::ast::{ArithOp, AssignOp, BinOp, BoolOp, Expr, ExprRef, Query, Ref};
use planner::lexer::Span;
use planner::value::{Number, Value};
use std::collections::BTreeMap;

/// Makes one of an operation's expressions. `eidx` and the span's `node` are a part's number.
pub struct Builder<'a> {
    pub tables: &'a Tables<'a>,
    pub texts: &'a Texts<'a>,
    pub root: u32,
}

impl Builder<'_> {
    /// None where the number is outside the nodes.
    pub fn expr(&self, number: u32) -> Option<ExprRef> {
        let node = self.tables.nodes.get((number as usize).checked_sub(1)?)?;
        let span = Span { text: self.texts.of_name(node), node: number, root: self.root };
        Some(Ref::new(match node.kind {
            kind::ARRAY | kind::SET | kind::OBJECT => self.composite(span, node),
            _ => self.leaf(span, node),
        }))
    }

    fn composite(&self, span: Span, node: &Node) -> Expr {
        let eidx = span.node;
        let children = self.tables.children_of(node).iter();
        let parts = children.map(|&child| self.expr(child).expect("a checked child"));
        match node.kind {
            kind::ARRAY => Expr::Array { span, items: parts.collect(), eidx },
            kind::SET => Expr::Set { span, items: parts.collect(), eidx },
            _ => {
                let parts: Vec<_> = parts.collect();
                let field = |pair: &[ExprRef]| (span.clone(), pair[0].clone(), pair[1].clone());
                let fields = parts.chunks(2).map(field).collect();
                Expr::Object { span, fields, eidx }
            }
        }
    }

    fn leaf(&self, span: Span, node: &Node) -> Expr {
        let eidx = span.node;
        let string = || Value::String(self.texts.of_string(node));
        match node.kind {
            kind::STRING => Expr::String { span, value: string(), eidx },
            kind::RAW_STRING => Expr::RawString { span, value: string(), eidx },
            kind::NUMBER => {
                let tables::Number { below_zero, size } = self.tables.numbers[node.first as usize];
                let number = Number::new(below_zero, size).expect("a checked number");
                Expr::Number { span, value: Value::Number(number), eidx }
            }
            kind::BOOL => Expr::Bool { span, value: Value::Bool(node.first == 1), eidx },
            kind::NULL => Expr::Null { span, value: Value::Null, eidx },
            kind::NAME => {
                let value = Value::String(span.text.clone());
                Expr::Var { span, value, eidx }
            }
            _ => other(span),
        }
    }
}

/// "Any other" expression, each sort in turn by the node's number. Its parts stand in no table.
fn other(span: Span) -> Expr {
    let eidx = span.node;
    let inner = Span { text: "inner".into(), node: 0, root: span.root };
    let part = || {
        let value = Value::String(inner.text.clone());
        Ref::new(Expr::Var { span: inner.clone(), value, eidx: 0 })
    };
    let query = || Ref::new(Query { span: inner.clone(), stmts: Vec::new(), qidx: 0 });
    match eidx % 12 {
        0 => Expr::ArrayCompr { span, term: part(), query: query(), eidx },
        1 => Expr::SetCompr { span, term: part(), query: query(), eidx },
        2 => Expr::ObjectCompr { span, key: part(), value: part(), query: query(), eidx },
        3 => Expr::Call { span, fcn: part(), params: vec![part()], eidx },
        4 => Expr::UnaryExpr { span, expr: part(), eidx },
        5 => Expr::RefDot { span, refr: part(), field: (inner.clone(), Value::Null), eidx },
        6 => Expr::RefBrack { span, refr: part(), index: part(), eidx },
        7 => Expr::BinExpr { span, op: BinOp::Union, lhs: part(), rhs: part(), eidx },
        8 => Expr::BoolExpr { span, op: BoolOp::Eq, lhs: part(), rhs: part(), eidx },
        9 => Expr::ArithExpr { span, op: ArithOp::Add, lhs: part(), rhs: part(), eidx },
        10 => Expr::AssignExpr { span, op: AssignOp::Eq, lhs: part(), rhs: part(), eidx },
        _ => Expr::Membership { span, key: None, value: part(), collection: part(), eidx },
    }
}

/// The literal of a key, as the Rust's `extract_literal_key` takes it.
pub fn literal_key(expr: &ExprRef) -> Option<&Value> {
    match expr.as_ref() {
        Expr::String { value, .. }
        | Expr::RawString { value, .. }
        | Expr::Number { value, .. }
        | Expr::Bool { value, .. }
        | Expr::Null { value, .. } => Some(value),
        _ => None,
    }
}

pub type Field = (Span, ExprRef, ExprRef);

/// The last field of each literal key, in key order.
pub fn last_fields(fields: &[Field]) -> BTreeMap<&Value, &Field> {
    fields.iter().filter_map(|field| Some((literal_key(&field.1)?, field))).collect()
}
