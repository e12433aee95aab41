//! What the planner answered, and which refused sides can be made equal.

use super::question::{Answer, OPERATIONS};
use crate::sheets::Operation;
use std::collections::BTreeMap;
use std::fmt;

#[derive(Default)]
pub struct Tally {
    pub pairs: u64,
    answers: BTreeMap<(u32, u32, bool), u64>,
    /// Pairs with a shape refusal.
    pub refused: u64,
    /// Those of them where all fillings were tried.
    pub tried: u64,
    pub fillings: u64,
    /// Pairs that are refused though they can be made equal.
    pub equal: u64,
    /// One of them with the fewest nodes.
    pub smallest: Option<(usize, String)>,
    /// Pairs refused with 18, and those of them that can be made equal.
    pub incompatible: [u64; 2],
    /// Collections refused as a whole, and those of them with an item that can be made equal.
    pub collections: [u64; 2],
}

/// 12 to 16.
pub fn is_shape_refusal(number: u32) -> bool {
    (12..=16).contains(&number)
}

impl Tally {
    pub fn add(&mut self, answers: &[Answer]) {
        for (operation, careful, number) in answers {
            *self.answers.entry((*number, *operation as u32, *careful)).or_default() += 1;
        }
    }

    pub fn add_equal(&mut self, size: usize, written: String) {
        self.equal += 1;
        if self.smallest.as_ref().is_none_or(|(smallest, _)| size < *smallest) {
            self.smallest = Some((size, written));
        }
    }

    fn counts(&self, f: &mut fmt::Formatter<'_>) -> fmt::Result {
        let Self { pairs, refused, tried, fillings, equal, .. } = self;
        let ([whole, with_equal], [incompatible, unified]) = (self.collections, self.incompatible);
        let calls: u64 = self.answers.values().sum();
        writeln!(f, "{pairs} pairs of sides, {calls} plannings")?;
        writeln!(f, "{tried} refused pairs with all fillings tried, {fillings} fillings")?;
        write!(f, "{whole} collections refused as a whole, {with_equal} of these ")?;
        writeln!(f, "with an item that can be made equal")?;
        write!(f, "{incompatible} pairs with refusal 18, {unified} of these ")?;
        writeln!(f, "can be made equal")?;
        write!(f, "{refused} pairs with refusal 12 to 16, {equal} of these ")?;
        writeln!(f, "can be made equal")
    }

    fn row(&self, f: &mut fmt::Formatter<'_>, number: u32) -> fmt::Result {
        let head = if number == 0 { "planned".into() } else { format!("refusal {number}") };
        write!(f, "{head:11}")?;
        for (operation, careful) in columns() {
            let count = self.answers.get(&(number, operation as u32, careful));
            write!(f, "{:10}", count.copied().unwrap_or(0))?;
        }
        writeln!(f)
    }
}

fn columns() -> impl Iterator<Item = (Operation, bool)> {
    OPERATIONS.into_iter().flat_map(|operation| [(operation, false), (operation, true)])
}

impl fmt::Display for Tally {
    fn fmt(&self, f: &mut fmt::Formatter<'_>) -> fmt::Result {
        write!(f, "{:11}", "")?;
        for head in [":=", "careful", "=", "careful", "some-in", "careful"] {
            write!(f, "{head:>10}")?;
        }
        writeln!(f)?;
        let mut numbers: Vec<u32> = self.answers.keys().map(|(number, ..)| *number).collect();
        numbers.dedup();
        numbers.into_iter().try_for_each(|number| self.row(f, number))?;
        self.counts(f)?;
        if let Some((size, written)) = &self.smallest {
            writeln!(f, "the smallest of these has {size} nodes: {written}")?;
        }
        Ok(())
    }
}
