//! How often each operation gave each form, side and refusal.

use crate::answer::{Answer, Present};
use std::collections::BTreeMap;
use std::fmt;

#[derive(Clone, Copy, Debug, PartialEq, Eq, PartialOrd, Ord)]
pub enum Row {
    Plan {
        form: u32,
        side: u32,
    },
    Refusal(u32),
    /// 13 or 14 in the careful reading, and what the present one answers.
    Careful(u32, Present),
}

/// Operation 0 for a sheet that could not be read.
pub type Place = (Row, u32);

pub fn place_of(answer: &Answer) -> Place {
    let row = match (&answer.outcome, answer.present) {
        (Ok(plan), _) => Row::Plan { form: plan.form, side: plan.side },
        (Err(refusal), Some(present)) => Row::Careful(refusal.number, present),
        (Err(refusal), None) => Row::Refusal(refusal.number),
    };
    (row, answer.operation.unwrap_or(0))
}

#[derive(Default)]
pub struct Tally {
    counts: BTreeMap<Place, u64>,
    /// Sheets of scoping 3 and 4, by operation.
    careful: [u64; OPERATIONS],
}

/// With 0 for a sheet that could not be read.
const OPERATIONS: usize = 7;
const HEADS: [&str; OPERATIONS + 1] =
    ["unread", "pattern", ":=", "=", "some-in", "index", "param", "all"];

impl Tally {
    pub fn add(&mut self, answer: &Answer) {
        let place = place_of(answer);
        *self.counts.entry(place).or_default() += 1;
        self.careful[place.1 as usize] += u64::from(answer.careful);
    }

    fn rows(&self) -> Vec<Row> {
        let mut rows: Vec<Row> = self.counts.keys().map(|(row, _)| *row).collect();
        rows.dedup();
        rows
    }

    /// The answers of some rows, by operation.
    fn counts(&self, is_row: impl Fn(&Row) -> bool) -> [u64; OPERATIONS] {
        let mut counts = [0; OPERATIONS];
        for ((row, operation), count) in &self.counts {
            counts[*operation as usize] += if is_row(row) { *count } else { 0 };
        }
        counts
    }
}

impl Row {
    /// Whether the two readings answer differently.
    fn differs(&self) -> bool {
        matches!(self, Self::Careful(_, Present::Elsewhere | Present::Plans))
    }
}

impl fmt::Display for Row {
    fn fmt(&self, f: &mut fmt::Formatter<'_>) -> fmt::Result {
        match self {
            Self::Plan { form, side: 0 } => write!(f, "form {form}"),
            Self::Plan { form, side } => write!(f, "form {form}, side {side}"),
            Self::Refusal(number) => write!(f, "refusal {number}"),
            Self::Careful(number, Present::Same) => write!(f, "careful {number}"),
            Self::Careful(number, Present::Elsewhere) => write!(f, "careful {number}, moved"),
            Self::Careful(number, Present::Plans) => write!(f, "careful {number}, new"),
        }
    }
}

impl fmt::Display for Tally {
    fn fmt(&self, f: &mut fmt::Formatter<'_>) -> fmt::Result {
        write!(f, "{:18}", "")?;
        HEADS.iter().try_for_each(|head| write!(f, "{head:>9}"))?;
        writeln!(f)?;
        for row in self.rows() {
            line(f, &row.to_string(), self.counts(|other| *other == row))?;
        }
        line(f, "all", self.counts(|_| true))?;
        line(f, "with scoping 3, 4", self.careful)?;
        line(f, "readings differ", self.counts(Row::differs))
    }
}

fn line(f: &mut fmt::Formatter<'_>, name: &str, counts: [u64; OPERATIONS]) -> fmt::Result {
    write!(f, "{name:18}")?;
    counts.iter().try_for_each(|count| write!(f, "{count:9}"))?;
    writeln!(f, "{:9}", counts.iter().sum::<u64>())
}
