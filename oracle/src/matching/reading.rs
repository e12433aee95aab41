//! The nodes of tables that keep the rules, as expressions and as values.

use super::case::Case;
use super::value::{Literal, Value};
use crate::sheets::draft::{Draft, COUNT, FIRST, KIND};
use std::rc::Rc;

#[derive(Clone, Debug)]
pub enum Expr {
    Literal(Literal),
    /// A name by its number.
    Name(u32),
    Underscore,
    Array(Vec<Expr>),
    /// Keys and values as written.
    Object(Vec<(Expr, Expr)>),
    /// A set or any other expression.
    Other,
}

pub fn is_node(case: &Case, node: u32) -> bool {
    (1..=case.draft.nodes.len() as u32).contains(&node)
}

pub fn expr(case: &Case, node: u32) -> Expr {
    let words = &case.draft.nodes[node as usize - 1];
    let inner = || children(&case.draft, words).iter().map(|&child| expr(case, child));
    match words[KIND] {
        6 if case.is_named(words[FIRST], b"_") => Expr::Underscore,
        6 => Expr::Name(words[FIRST]),
        7 => Expr::Array(inner().collect()),
        9 => {
            let parts: Vec<Expr> = inner().collect();
            Expr::Object(
                parts.chunks(2).map(|field| (field[0].clone(), field[1].clone())).collect(),
            )
        }
        _ => literal(&case.draft, words).map_or(Expr::Other, Expr::Literal),
    }
}

fn children<'a>(draft: &'a Draft, node: &[u32; 5]) -> &'a [u32] {
    match Draft::width(node) {
        0 => &[],
        width => &draft.children[node[FIRST] as usize..][..width],
    }
}

/// The literal of a node, if it is one.
pub(crate) fn literal(draft: &Draft, node: &[u32; 5]) -> Option<Literal> {
    let first = node[FIRST] as usize;
    let bytes = |store: &[u8]| Literal::String(store[first..][..node[COUNT] as usize].to_vec());
    match node[KIND] {
        1 => Some(bytes(&draft.strings)),
        2 => Some(bytes(&draft.text)),
        3 => Some(Literal::Number(draft.numbers[first])),
        4 => Some(Literal::Bool(first == 1)),
        5 => Some(Literal::Null),
        _ => None,
    }
}

/// Literals, arrays and objects with differing literal keys.
pub fn value(expr: &Expr) -> Option<Rc<Value>> {
    let value = match expr {
        Expr::Literal(literal) => Value::Literal(literal.clone()),
        Expr::Array(items) => Value::Array(items.iter().map(value).collect::<Option<_>>()?),
        Expr::Object(fields) => {
            let keys = literal_keys(fields)?;
            let values: Option<Vec<_>> = fields.iter().map(|(_, inner)| value(inner)).collect();
            Value::Object(keys.into_iter().zip(values?).collect())
        }
        _ => return None,
    };
    Some(Rc::new(value))
}

/// The keys of fields, if they are literals and all different.
pub fn literal_keys(fields: &[(Expr, Expr)]) -> Option<Vec<Literal>> {
    let mut keys: Vec<Literal> = Vec::new();
    for (key, _) in fields {
        match key {
            Expr::Literal(literal) if !keys.contains(literal) => keys.push(literal.clone()),
            _ => return None,
        }
    }
    Some(keys)
}

/// The value of a node, where there is such a node and it is a value.
pub fn value_at(case: &Case, node: u32) -> Option<Rc<Value>> {
    is_node(case, node).then(|| expr(case, node)).and_then(|expr| value(&expr))
}

/// The node and all below it, the keys of objects aside.
pub fn reached(case: &Case, node: u32) -> Vec<u32> {
    let words = &case.draft.nodes[node as usize - 1];
    let children = children(&case.draft, words);
    let (skipped, step) = if words[KIND] == 9 { (1, 2) } else { (0, 1) };
    let inner = children.iter().skip(skipped).step_by(step);
    std::iter::once(node).chain(inner.flat_map(|&child| reached(case, child))).collect()
}
