//! A fixed list of the oracle's answers: of each row of the tally as many as its share takes.

use crate::answer::answer;
use crate::generate::{self, Random};
use crate::tally::{place_of, Place, Row};
use crate::trials::trials;
use std::collections::{BTreeMap, BTreeSet};
use std::io::{self, Write};

pub struct Case {
    sheet: Vec<u8>,
    listing: String,
}

/// A case above this is taken only where a row has no others.
const SHORT: usize = 700;

/// The most cases of a row, and the bytes that they may have together: more for the planner's own.
fn share((row, _): &Place) -> (usize, usize) {
    match row {
        Row::Refusal(1..=7) => (30, 12_000),
        Row::Careful(..) => (30, 15_000),
        _ => (60, 29_000),
    }
}

/// Chosen from the first `count` sheets of a seed; the rules on trial stand in front.
pub fn select(seed: u64, count: u64) -> Vec<Case> {
    let mut rows: BTreeMap<Place, Vec<Case>> = BTreeMap::new();
    for case in 0..count {
        let sheet = generate::sheet(seed, case);
        let answer = answer(&sheet);
        let row = rows.entry(place_of(&answer)).or_default();
        row.push(Case { sheet, listing: answer.to_string() });
    }
    let trials = trials().into_iter().map(|trial| {
        let listing = answer(&trial.sheet).to_string();
        Case { sheet: trial.sheet, listing }
    });
    let random = &mut Random::of_case(seed, count);
    let chosen = rows.into_iter().flat_map(|(place, row)| of_row(random, share(&place), row));
    trials.chain(chosen).collect()
}

/// Any of the short cases, those first whose listing has not been taken.
fn of_row(random: &mut Random, (cases, bytes): (usize, usize), mut row: Vec<Case>) -> Vec<Case> {
    random.shuffle(&mut row);
    let mut met = BTreeSet::new();
    row.sort_by_cached_key(|case| {
        let long = if case.size() > SHORT { case.size() } else { 0 };
        (long, !met.insert(case.listing.clone()))
    });
    let mut taken = 0;
    let fits = |case: &Case| {
        taken += case.size();
        taken <= bytes
    };
    row.into_iter().take(cases).take_while(fits).collect()
}

impl Case {
    fn size(&self) -> usize {
        self.sheet.len() + self.listing.len()
    }

    /// Two columns of six with the lengths, LF, the sheet, the listing.
    pub fn write(&self, file: &mut impl Write) -> io::Result<()> {
        writeln!(file, "{:6}{:6}", self.sheet.len(), self.listing.len())?;
        file.write_all(&self.sheet)?;
        file.write_all(self.listing.as_bytes())
    }
}
