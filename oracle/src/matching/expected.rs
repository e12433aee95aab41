//! What document 01 says of a run.

use super::case::Case;
use super::filling::{names, Blanks, Filling};
use super::reading::{expr, is_node, literal_keys, value_at, Expr};
use crate::answer::{answer, Entry, ENTRY_WORDS};
use crate::sheets::Draft;
use std::collections::BTreeMap;

/// Name marks of a scope that is lent to a call.
const MARKS: usize = 128;

#[derive(Debug)]
pub enum Expected {
    /// A refusal: number, place and two counts.
    Refused([u32; 4]),
    /// No match where there is no filling.
    Ran(Ran),
}

#[derive(Debug)]
pub struct Ran {
    pub pattern: Expr,
    /// The names that a match sets.
    pub planned: Vec<u32>,
    /// All that make pattern and value equal, a value for each planned name first.
    pub fillings: Vec<Filling>,
    /// The words of the pattern's plan.
    pub plan: Vec<u32>,
}

pub fn expected(case: &Case) -> Expected {
    match run(case) {
        Ok(ran) => Expected::Ran(ran),
        Err(refusal) => Expected::Refused(refusal),
    }
}

/// A run's refusals, then 6.
fn run(case: &Case) -> Result<Ran, [u32; 4]> {
    let Checked { pattern, known, plan } = checked(case, Some(case.value()))?;
    let entries = plan.len() / ENTRY_WORDS;
    if case.room / ENTRY_WORDS < entries {
        return Err([6, 0, entries as u32, 0]);
    }
    let value = |node: u32| value_at(case, node).expect("it is a value");
    let known = known.into_iter().map(|(name, node)| (name, value(node))).collect();
    let blanks = Blanks::new(&pattern, known);
    let (fillings, planned) = (blanks.fillings(&value(case.value())), blanks.unknown);
    Ok(Ran { pattern, planned, fillings, plan })
}

/// What the checks of a run leave.
pub(crate) struct Checked {
    pub pattern: Expr,
    /// The listed nodes of the pattern's known names.
    pub known: BTreeMap<u32, u32>,
    /// The words of the pattern's plan.
    pub plan: Vec<u32>,
}

/// What the call refuses first, then the refusals to 23 in the order of document 01, "What each
/// operation turns back"; of the pattern alone where there is no value yet.
pub(crate) fn checked(case: &Case, value: Option<u32>) -> Result<Checked, [u32; 4]> {
    let refuse = |refused: bool, number: u32| if refused { Err(alone(number)) } else { Ok(()) };
    let plan = plan_first(case)?;
    let is_outside = |node: u32| !is_node(case, node);
    refuse(is_outside(case.pattern()) || value.is_some_and(is_outside), 5)?;
    refuse(case.values.len() < case.draft.names.len(), 20)?;
    let pattern = expr(case, case.pattern());
    refuse(!is_simple(&pattern), 21)?;
    let listed = &case.values[..case.draft.names.len()];
    let mut values = listed.iter().copied().filter(|&node| node != 0).chain(value);
    refuse(values.any(|node| value_at(case, node).is_none()), 22)?;
    let met = names(&pattern).0.into_iter().filter(|&name| !case.is_unbound(name));
    let known: BTreeMap<u32, u32> = met.map(|name| (name, listed[name as usize - 1])).collect();
    refuse(known.values().any(|&node| node == 0), 23)?;
    Ok(Checked { pattern, known, plan })
}

/// A refusal that has no place and no counts.
pub(crate) fn alone(number: u32) -> [u32; 4] {
    [number, 0, 0, 0]
}

/// What comes before a run's or a report's own refusals, and the words of the Rust's plan of the pattern.
pub(crate) fn plan_first(case: &Case) -> Result<Vec<u32>, [u32; 4]> {
    if !is_listed(case) {
        return Err(alone(7));
    }
    let plan = checked_plan(case);
    if plan != Err(1) && !has_small_marks(case) {
        return Err(alone(2));
    }
    plan.map_err(alone)
}

/// The table check but for marks above 31, which a sheet doesn't have, and the words of the Rust's plan of
/// the pattern; none if its root is outside.
fn checked_plan(case: &Case) -> Result<Vec<u32>, u32> {
    let pattern = Some(case.pattern()).filter(|&root| is_node(case, root));
    let marks = case.marks.iter().map(|&marks| marks.min(31)).chain(std::iter::repeat(0));
    let names = case.draft.names.iter().zip(marks);
    let draft = Draft {
        operation: 1,
        scheduler: case.scheduler,
        scoping: case.scoping,
        roots: [pattern.unwrap_or(0), 0, 0],
        names: names.map(|(name, marks)| [name[0], name[1], marks.into()]).collect(),
        ..case.draft.clone()
    };
    match answer(&draft.bytes()).outcome {
        Ok(plan) => Ok(plan.entries.iter().flat_map(Entry::words).collect()),
        Err(refusal) if refusal.number == 5 => Ok(Vec::new()),
        Err(refusal) => Err(refusal.number),
    }
}

/// A scheduler and a scoping that documents 01 and 02 list.
pub(crate) fn is_listed(case: &Case) -> bool {
    case.scheduler <= 1 && (1..=4).contains(&case.scoping)
}

/// No marks above 31 among those that count.
fn has_small_marks(case: &Case) -> bool {
    case.marks.iter().take(MARKS).all(|&marks| marks <= 31)
}

/// No set, other expression, computed or repeated key.
fn is_simple(pattern: &Expr) -> bool {
    match pattern {
        Expr::Array(items) => items.iter().all(is_simple),
        Expr::Object(fields) => {
            literal_keys(fields).is_some() && fields.iter().all(|(_, value)| is_simple(value))
        }
        Expr::Other => false,
        _ => true,
    }
}

#[cfg(test)]
mod tests {
    use super::super::value::{equal, Literal, Value};
    use super::*;
    use crate::sheets::{encode, rule};

    fn case(text: &str) -> Case {
        Case::new(encode(&rule(text)))
    }

    fn number(case: &Case) -> u32 {
        match expected(case) {
            Expected::Refused([number, ..]) => number,
            Expected::Ran(_) => 0,
        }
    }

    #[test]
    fn fields_are_filled_in_any_order() {
        let case = case(r#"{"b": x, "a": x} = {"a": 1, "b": 1}"#);
        let Expected::Ran(ran) = expected(&case) else { panic!("it runs") };
        assert_eq!(ran.planned, [case.name_number(b"x")]);
        let one = Value::Literal(Literal::Number(1));
        assert!(!ran.fillings.is_empty());
        assert!(ran.fillings.iter().all(|filling| equal(&filling[0], &one)));
    }

    #[test]
    fn refusals_stand_in_their_order() {
        let mut case = case("[x, {y}] = [1, z]");
        let x = case.name_number(b"x");
        case.marks[x as usize - 1] = 1;
        case.room = 0;
        case.values.clear();
        case.scoping = 5;
        assert_eq!(number(&case), 7);
        case.scoping = 3;
        case.marks.resize(MARKS, 0);
        case.marks[MARKS - 1] = 32;
        assert_eq!(number(&case), 2);
        let nodes = case.draft.nodes.clone();
        case.draft.nodes.resize(513, nodes[0]);
        assert_eq!(number(&case), 1);
        case.draft.nodes = nodes;
        case.marks[MARKS - 1] = 31;
        let value = std::mem::replace(&mut case.draft.roots[1], 99);
        assert_eq!(number(&case), 5);
        case.draft.roots[1] = value;
        assert_eq!(number(&case), 20);
        case.values = vec![0; 3];
        assert_eq!(number(&case), 21);
        case.draft.roots[0] = 1;
        assert_eq!(number(&case), 22);
        case.draft.roots[1] = (1..).find(|&node| value_at(&case, node).is_some()).unwrap();
        assert_eq!(number(&case), 23);
        case.values[x as usize - 1] = case.draft.roots[1];
        assert_eq!(number(&case), 6);
        case.room = ENTRY_WORDS;
        assert_eq!(number(&case), 0);
    }
}
