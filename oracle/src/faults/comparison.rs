//! Holds the call against the second reading, and counts by rule.

use super::calls::TableFault;
use super::generate::{Case, MOST_ANSWER};
use super::reading::{expected, RULES};
use crate::matching::comparison::{with_guard, GUARD, UNWRITTEN};
use std::fmt;

/// Differences beyond these are counted alone.
const KEPT: usize = 20;

pub struct Comparison {
    subject: TableFault,
    pub cases: u64,
    pub differing: u64,
    pub differences: Vec<String>,
    /// Of no broken rule, then of each.
    by_rule: [u64; RULES.len() + 1],
    by_room: [u64; MOST_ANSWER + 1],
}

impl Comparison {
    pub fn new(subject: TableFault) -> Self {
        Self {
            subject,
            cases: 0,
            differing: 0,
            differences: Vec::new(),
            by_rule: [0; RULES.len() + 1],
            by_room: [0; MOST_ANSWER + 1],
        }
    }

    /// A case, with so many words lent for the answer.
    pub fn case(&mut self, case: &Case, room: usize) {
        let expected = expected(case);
        self.by_rule[expected[1] as usize] += 1;
        self.by_room[room] += 1;
        let mut answer = with_guard(&vec![UNWRITTEN; room]);
        let number = (self.subject)(case, &mut answer[..room]);
        let mut told = expected.to_vec();
        told.resize(MOST_ANSWER, UNWRITTEN);
        if number != expected[0] || answer != with_guard(&told[..room]) {
            self.differing += 1;
            if self.differences.len() < KEPT {
                self.differences.push(format!(
                    "case {} ({room} words): {expected:?} expected, got {number} and {:?}; {case:?}",
                    self.cases,
                    &answer[..answer.len() - GUARD]
                ));
            }
        }
        self.cases += 1;
    }

    /// Classes that were never met.
    pub fn unmet(&self) -> Vec<String> {
        let rules = (0..=RULES.len()).filter(|&rule| self.by_rule[rule] == 0);
        let rooms = (0..=MOST_ANSWER).filter(|&room| self.by_room[room] == 0);
        rules
            .map(|rule| format!("rule {rule}"))
            .chain(rooms.map(|room| format!("words for the answer: {room}")))
            .collect()
    }
}

impl fmt::Display for Comparison {
    fn fmt(&self, f: &mut fmt::Formatter<'_>) -> fmt::Result {
        for (rule, count) in self.by_rule.iter().enumerate() {
            let number = rule.checked_sub(1).map_or(0, |place| RULES[place].0);
            writeln!(f, "{number}, rule {rule:2}{count:17}")?;
        }
        for (room, count) in self.by_room.iter().enumerate() {
            writeln!(f, "words for the answer: {room}{count:9}")?;
        }
        Ok(())
    }
}
