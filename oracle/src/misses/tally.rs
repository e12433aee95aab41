//! How often each answer was expected.

use std::collections::BTreeMap;
use std::fmt;

/// Each answer by its number and, of no match, why.
const CLASSES: [([u32; 2], &str); 18] = [
    ([0, 0], "match"),
    ([100, 1], "a name"),
    ([100, 2], "a literal"),
    ([100, 3], "no array"),
    ([100, 4], "another length"),
    ([100, 5], "no object"),
    ([100, 6], "a key is missing"),
    ([100, 7], "a key too many"),
    ([1, 0], "refusal 1"),
    ([2, 0], "refusal 2"),
    ([3, 0], "refusal 3"),
    ([4, 0], "refusal 4"),
    ([5, 0], "refusal 5"),
    ([7, 0], "refusal 7"),
    ([20, 0], "refusal 20"),
    ([21, 0], "refusal 21"),
    ([22, 0], "refusal 22"),
    ([23, 0], "refusal 23"),
];

#[derive(Default)]
pub struct Tally {
    counts: BTreeMap<[u32; 2], u64>,
}

impl Tally {
    pub fn add(&mut self, told: [u32; 4]) {
        *self.counts.entry([told[0], told[3]]).or_default() += 1;
    }

    fn count(&self, class: [u32; 2]) -> u64 {
        self.counts.get(&class).copied().unwrap_or(0)
    }

    /// What a run of the comparison has to meet, and has not.
    pub fn never_met(&self) -> Vec<&'static str> {
        let unmet = CLASSES.iter().filter(|(class, _)| self.count(*class) == 0);
        unmet.map(|(_, name)| *name).collect()
    }
}

impl fmt::Display for Tally {
    fn fmt(&self, f: &mut fmt::Formatter<'_>) -> fmt::Result {
        CLASSES
            .iter()
            .try_for_each(|(class, name)| writeln!(f, "{name:17}{:8}", self.count(*class)))
    }
}
