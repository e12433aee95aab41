//! How often each answer was expected, and by what.

use super::case::{below, measured_keys, measured_nodes, Measured};
use super::reading::Expected;
use std::collections::BTreeMap;
use std::fmt;

/// Always, never, sometimes, and every refusal of the call.
const CLASSES: [u32; 15] = [0, 100, 101, 1, 2, 3, 4, 5, 6, 7, 20, 21, 22, 23, 32];
const JUDGED: [u32; 3] = [0, 100, 101];
const HEADS: [&str; 5] = ["choices", "wide", "a key", "pattern", "all"];

#[derive(Default)]
pub struct Tally {
    counts: BTreeMap<(u32, &'static str), u64>,
}

impl Tally {
    /// `tried`: all its choices were run.
    pub fn add(&mut self, asked: &Measured, expected: &Expected, tried: bool) {
        let number = match expected {
            Expected::Refused([number, ..]) => *number,
            Expected::Judged(judged) => judged.number,
        };
        let mut count = |head: &'static str| *self.counts.entry((number, head)).or_default() += 1;
        count("all");
        if tried {
            count("choices");
        } else if JUDGED.contains(&number) && !asked.small {
            count("wide");
        }
        if JUDGED.contains(&number) && !measured_keys(&asked.case).is_empty() {
            count("a key");
        }
        if JUDGED.contains(&number) && in_pattern(asked) {
            count("pattern");
        }
    }

    fn count(&self, number: u32, head: &'static str) -> u64 {
        self.counts.get(&(number, head)).copied().unwrap_or(0)
    }

    /// What a run of the comparison has to meet, and has not.
    pub fn never_met(&self) -> Vec<String> {
        let all = CLASSES.iter().map(|&number| (number, "all"));
        let judged =
            JUDGED.iter().flat_map(|&number| HEADS[..3].iter().map(move |head| (number, *head)));
        let unmet = all.chain(judged).filter(|&(number, head)| self.count(number, head) == 0);
        unmet.map(|(number, head)| format!("{} ({head})", name(number))).collect()
    }
}

/// A measured node stands in the pattern too.
fn in_pattern(asked: &Measured) -> bool {
    !measured_nodes(&asked.case).is_disjoint(&below(&asked.case, asked.case.pattern()))
}

fn name(number: u32) -> String {
    match number {
        0 => "always".into(),
        100 => "never".into(),
        101 => "sometimes".into(),
        refusal => format!("refusal {refusal}"),
    }
}

impl fmt::Display for Tally {
    fn fmt(&self, f: &mut fmt::Formatter<'_>) -> fmt::Result {
        write!(f, "{:11}", "")?;
        HEADS.iter().try_for_each(|head| write!(f, "{head:>9}"))?;
        for number in CLASSES {
            write!(f, "\n{:11}", name(number))?;
            HEADS.iter().try_for_each(|head| write!(f, "{:9}", self.count(number, head)))?;
        }
        writeln!(f)
    }
}
