//! How often each answer was expected, by how the case was made and by what its pattern has.

use super::case::{Case, Origin};
use super::expected::Expected;
use super::filling::names;
use super::reading::{literal_keys, Expr};
use std::collections::BTreeMap;
use std::fmt;

#[derive(Clone, Copy, Debug, PartialEq, Eq, PartialOrd, Ord)]
enum Row {
    Match,
    NoMatch,
    Refusal(u32),
}

#[derive(Clone, Copy, Debug, PartialEq, Eq, PartialOrd, Ord)]
enum Column {
    Origin(Origin),
    Known,
    Unknown,
    Repeated,
    Underscore,
    Array,
    Object,
    /// Fields that are not written in the order of keys.
    Unordered,
    /// Arrays and objects in one another.
    Deep,
    All,
}

const HEADS: [(&str, Column); 14] = [
    ("filled", Column::Origin(Origin::Filled)),
    ("differs", Column::Origin(Origin::Differing)),
    ("changed", Column::Origin(Origin::Changed)),
    ("other", Column::Origin(Origin::Unrelated)),
    ("fault", Column::Origin(Origin::Faulty)),
    ("known", Column::Known),
    ("unknown", Column::Unknown),
    ("repeat", Column::Repeated),
    ("_", Column::Underscore),
    ("array", Column::Array),
    ("object", Column::Object),
    ("order", Column::Unordered),
    ("deep", Column::Deep),
    ("all", Column::All),
];

#[derive(Default)]
pub struct Tally {
    counts: BTreeMap<(Row, Column), u64>,
}

impl Tally {
    pub fn add(&mut self, case: &Case, expected: &Expected) {
        let row = match expected {
            Expected::Refused([number, ..]) => Row::Refusal(*number),
            Expected::Ran(ran) if ran.fillings.is_empty() => Row::NoMatch,
            Expected::Ran(_) => Row::Match,
        };
        let mut columns = vec![Column::All, Column::Origin(case.origin)];
        if let Expected::Ran(ran) = expected {
            columns.extend(features(case, &ran.pattern));
        }
        columns.into_iter().for_each(|column| *self.counts.entry((row, column)).or_default() += 1);
    }
}

/// What the pattern of a run has.
fn features(case: &Case, pattern: &Expr) -> impl Iterator<Item = Column> {
    let (met, underscores) = names(pattern);
    let (unknown, known): (Vec<u32>, Vec<u32>) =
        met.into_iter().partition(|name| case.is_unbound(*name));
    let repeated = (1..unknown.len()).any(|place| unknown[..place].contains(&unknown[place]));
    let parts = parts(pattern);
    let any = |is: fn(&Expr) -> bool| parts.iter().any(|part| is(part));
    let found = [
        (!known.is_empty(), Column::Known),
        (!unknown.is_empty(), Column::Unknown),
        (repeated, Column::Repeated),
        (underscores > 0, Column::Underscore),
        (any(|part| matches!(part, Expr::Array(_))), Column::Array),
        (any(|part| matches!(part, Expr::Object(_))), Column::Object),
        (any(is_unordered), Column::Unordered),
        (depth(pattern) > 2, Column::Deep),
    ];
    found.into_iter().filter(|(is, _)| *is).map(|(_, column)| column)
}

fn inner(pattern: &Expr) -> Vec<&Expr> {
    match pattern {
        Expr::Array(items) => items.iter().collect(),
        Expr::Object(fields) => fields.iter().map(|(_, value)| value).collect(),
        _ => Vec::new(),
    }
}

fn parts(pattern: &Expr) -> Vec<&Expr> {
    std::iter::once(pattern).chain(inner(pattern).into_iter().flat_map(parts)).collect()
}

fn depth(pattern: &Expr) -> usize {
    1 + inner(pattern).into_iter().map(depth).max().unwrap_or(0)
}

fn is_unordered(pattern: &Expr) -> bool {
    match pattern {
        Expr::Object(fields) => !literal_keys(fields).is_some_and(|keys| keys.is_sorted()),
        _ => false,
    }
}

impl fmt::Display for Row {
    fn fmt(&self, f: &mut fmt::Formatter<'_>) -> fmt::Result {
        match self {
            Self::Match => f.pad("match"),
            Self::NoMatch => f.pad("no match"),
            Self::Refusal(number) => f.pad(&format!("refusal {number}")),
        }
    }
}

impl fmt::Display for Tally {
    fn fmt(&self, f: &mut fmt::Formatter<'_>) -> fmt::Result {
        let mut rows: Vec<Row> = self.counts.keys().map(|(row, _)| *row).collect();
        rows.dedup();
        write!(f, "{:11}", "")?;
        HEADS.iter().try_for_each(|(head, _)| write!(f, "{head:>8}"))?;
        for row in rows {
            write!(f, "\n{row:11}")?;
            let count = |column| self.counts.get(&(row, column)).copied().unwrap_or(0);
            HEADS.iter().try_for_each(|(_, column)| write!(f, "{:8}", count(*column)))?;
        }
        writeln!(f)
    }
}
