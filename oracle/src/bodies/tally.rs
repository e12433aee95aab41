//! How often each class of bodies was met, each body once a class; and which never was.

use super::case::{Case, LINE_WORDS, MARKS};
use super::expected::Expected;
use super::plan::{Line, Plan};
use super::reading::Met;
use super::sides::Side;
use crate::answer::ENTRY_WORDS;
use std::collections::{BTreeMap, BTreeSet};
use std::fmt;

/// A section of the tally, one of its rows, and its first or second column.
#[derive(Clone, Copy, Debug, PartialEq, Eq, PartialOrd, Ord)]
pub struct Class {
    section: usize,
    row: &'static str,
    column: usize,
}

const BODIES: usize = 0;
const PLANNED: usize = 1;
const READY: usize = 2;
const REFUSED: usize = 3;
const NOT_READY: usize = 4;

/// The columns in which a row has to be met.
#[derive(Clone, Copy, PartialEq)]
enum Columns {
    Both,
    First,
    Second,
}

use Columns::{Both, First, Second};

type Rows = &'static [(&'static str, Columns)];

const SECTIONS: [(&str, [&str; 2], Rows); 5] = [
    (
        "bodies",
        ["accepted", "refused"],
        &[
            ("1 line", Both),
            ("2 to 5 lines", Both),
            ("6 to 63 lines", Both),
            ("64 lines", Both),
            ("not 1 to 64 lines", Second),
            ("scheduler 0", Both),
            ("scheduler 1", Both),
            ("other scheduler", Second),
            ("fewer marks than names", Both),
            ("more than 128 marks", Both),
            ("answer below 5 words", Both),
            ("answer above 5 words", Both),
            ("buffer of 0 words", Both),
            ("buffer not whole", Both),
        ],
    ),
    (
        "lines planned, names ready",
        ["line 1", "later"],
        &[
            (":=", Both),
            ("bind left", Both),
            ("bind right", Both),
            ("pairs", Both),
            ("equality check", Both),
            ("wildcard left", Both),
            ("wildcard right", Both),
            ("two wildcards", Both),
            ("some-in", Both),
            ("some-in with a key", Both),
            ("index", Both),
        ],
    ),
    (
        "names that are ready",
        ["line 1", "later"],
        &[
            ("known at the start", Both),
            ("bound by an earlier line", Second),
            ("bound by an earlier pair", Both),
            ("right of :=", Both),
            ("bind left's value", Both),
            ("bind right's value", Both),
            ("pair", Both),
            ("equality's left", Both),
            ("equality's right", Both),
            ("other than left _", Both),
            ("other than right _", Both),
            ("collection", Both),
            ("computed key, :=", Both),
            ("computed key, =", Both),
            ("computed key, pair", Both),
            ("computed key, some-in", Both),
            ("computed key, some-in key", Both),
            ("computed key, index", Both),
            ("in a set", Both),
            ("in an object's key", Both),
            ("_ passed over", Both),
        ],
    ),
    (
        "refused",
        ["line 1", "later"],
        &[
            ("7", First),
            ("37, length", First),
            ("37, no line", First),
            ("37, above 64 lines", First),
            ("37, operation below 2", First),
            ("37, operation above 5", First),
            ("1", First),
            ("2, tables", First),
            ("2, marks", First),
            ("3", First),
            ("4", First),
            ("5", Both),
            ("6", Both),
            ("11", Both),
            ("12", Both),
            ("13", Both),
            ("14", Both),
            ("15", Both),
            ("16", Both),
            ("17", Both),
            ("18", Both),
        ],
    ),
    (
        "38, name not ready",
        ["line 1", "later"],
        &[
            ("right of :=", Both),
            ("bind left's value", Both),
            ("bind right's value", Both),
            ("pair", Both),
            ("equality's left", Both),
            ("equality's right", Both),
            ("other than left _", Both),
            ("other than right _", Both),
            ("collection", Both),
            ("computed key, :=", Both),
            ("computed key, =", Both),
            ("computed key, pair", Both),
            ("computed key, some-in", Both),
            ("computed key, some-in key", Both),
            ("computed key, index", Both),
            ("in a set", Both),
            ("in an object's key", Both),
            ("bound by this line's plan", Both),
            ("after pairs that bind", Both),
        ],
    ),
];

impl Class {
    /// Something of a line, by its number from 1.
    fn at(section: usize, row: &'static str, line: u32) -> Self {
        Self { section, row, column: usize::from(line > 1) }
    }
}

/// Words that are no body, or a scheduler that isn't listed.
pub fn unread(why: &'static str) -> Class {
    Class::at(REFUSED, why, 1)
}

pub fn refused(number: u32, above_31: bool, line: u32) -> Class {
    let row = match number {
        2 if above_31 => "2, marks",
        2 => "2, tables",
        _ => {
            let texts = SECTIONS[REFUSED].2.iter().map(|(row, _)| *row);
            texts.into_iter().find(|row| *row == number.to_string()).expect("a line's own refusal")
        }
    };
    Class::at(REFUSED, row, line)
}

pub fn planned(line: Line, plan: &Plan, number: u32) -> Class {
    let row = match (line.operation, plan.form, plan.side) {
        (2, ..) => ":=",
        (3, 2, _) => "bind left",
        (3, 3, _) => "bind right",
        (3, 4, _) => "pairs",
        (3, 5, _) => "equality check",
        (3, _, 1) => "wildcard left",
        (3, _, 2) => "wildcard right",
        (3, ..) => "two wildcards",
        (4, 0, _) => "some-in",
        (4, ..) => "some-in with a key",
        _ => "index",
    };
    Class::at(PLANNED, row, number)
}

/// A name that is ready, and why.
pub fn ready(number: u32, side: &Side, met: &Met, why: &'static str) -> Vec<Class> {
    let rows = [why, side.sort].into_iter().chain(inside(met));
    rows.map(|row| Class::at(READY, row, number)).collect()
}

pub fn passed_over(number: u32) -> Class {
    Class::at(READY, "_ passed over", number)
}

/// A name that is not ready; `own` if this line's own plan binds it.
pub fn not_ready(number: u32, side: &Side, met: &Met, own: bool) -> Vec<Class> {
    let own = own.then_some("bound by this line's plan");
    let pairs = (!side.earlier.is_empty()).then_some("after pairs that bind");
    let rows = [side.sort].into_iter().chain(inside(met)).chain(own).chain(pairs);
    rows.map(|row| Class::at(NOT_READY, row, number)).collect()
}

fn inside(met: &Met) -> impl Iterator<Item = &'static str> {
    let set = met.in_set.then_some("in a set");
    set.into_iter().chain(met.in_key.then_some("in an object's key"))
}

/// What a body is made of and lent.
fn body(case: &Case, column: usize) -> impl Iterator<Item = Class> {
    let names = case.draft.names.len();
    let found = [
        (case.lines.len() == LINE_WORDS, "1 line"),
        ((2..=5).contains(&lines(case)), "2 to 5 lines"),
        ((6..=63).contains(&lines(case)), "6 to 63 lines"),
        (lines(case) == 64, "64 lines"),
        (!(1..=64).contains(&lines(case)), "not 1 to 64 lines"),
        (case.scheduler == 0, "scheduler 0"),
        (case.scheduler == 1, "scheduler 1"),
        (case.scheduler > 1, "other scheduler"),
        (case.marks.len() < names, "fewer marks than names"),
        (case.marks.len() > MARKS, "more than 128 marks"),
        (case.answer_room < 5, "answer below 5 words"),
        (case.answer_room > 5, "answer above 5 words"),
        (case.room == 0, "buffer of 0 words"),
        (!case.room.is_multiple_of(ENTRY_WORDS), "buffer not whole"),
    ];
    let rows = found.into_iter().filter(|(is, _)| *is);
    rows.map(move |(_, row)| Class { section: BODIES, row, column })
}

/// Whole lines.
fn lines(case: &Case) -> usize {
    case.lines.len() / LINE_WORDS
}

#[derive(Default)]
pub struct Tally {
    counts: BTreeMap<Class, u64>,
}

impl Tally {
    pub fn add(&mut self, case: &Case, expected: &Expected) {
        let column = usize::from(expected.told[0] != 0);
        let classes = body(case, column).chain(expected.classes.iter().copied());
        let once: BTreeSet<Class> = classes.collect();
        once.into_iter().for_each(|class| *self.counts.entry(class).or_default() += 1);
    }

    fn count(&self, section: usize, row: &'static str, column: usize) -> u64 {
        self.counts.get(&Class { section, row, column }).copied().unwrap_or(0)
    }

    /// The classes that no body was of.
    pub fn missing(&self) -> Vec<String> {
        let mut missing = Vec::new();
        for (section, (title, heads, rows)) in SECTIONS.iter().enumerate() {
            for (row, columns) in *rows {
                for (column, other) in [Second, First].into_iter().enumerate() {
                    if *columns != other && self.count(section, row, column) == 0 {
                        missing.push(format!("{title}: {row}, {}", heads[column]));
                    }
                }
            }
        }
        missing
    }
}

impl fmt::Display for Tally {
    fn fmt(&self, f: &mut fmt::Formatter<'_>) -> fmt::Result {
        for (section, (title, heads, rows)) in SECTIONS.iter().enumerate() {
            writeln!(f, "{title:28}{:>10}{:>10}", heads[0], heads[1])?;
            for (row, columns) in *rows {
                let cell = |column: usize, never: Columns| match *columns == never {
                    true => String::new(),
                    false => self.count(section, row, column).to_string(),
                };
                writeln!(f, "  {row:26}{:>10}{:>10}", cell(0, Second), cell(1, First))?;
            }
        }
        Ok(())
    }
}
