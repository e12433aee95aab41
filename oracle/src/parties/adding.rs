//! Holds additions to the name table against what is expected of them, and counts.

use super::calls::AddName;
use super::expected::{expected, Why, ALL};
use super::words::Words;
use crate::matching::comparison::{with_guard, GUARD, UNWRITTEN};
use std::collections::BTreeMap;
use std::fmt;

#[derive(Clone, Debug)]
pub struct Addition {
    pub words: Words,
    /// Names in use.
    pub used: u32,
    /// The name's range of the text.
    pub start: u32,
    pub length: u32,
}

/// Differences beyond these are counted alone.
const KEPT: usize = 20;
/// Words that are lent for an answer of four.
pub const MOST_ANSWER: usize = 5;
/// Numbers of names in use that each have to be met, about the limit of 128.
const NEAR_LIMIT: std::ops::RangeInclusive<u32> = 126..=131;

pub struct Comparison {
    subject: AddName,
    pub additions: u64,
    pub differing: u64,
    pub differences: Vec<String>,
    by_why: BTreeMap<Why, u64>,
    by_used: BTreeMap<u32, u64>,
    by_room: [u64; MOST_ANSWER + 1],
    /// Additions to a table with free places, whatever stands in them.
    free: u64,
}

impl Comparison {
    pub fn new(subject: AddName) -> Self {
        Self {
            subject,
            additions: 0,
            differing: 0,
            differences: Vec::new(),
            by_why: BTreeMap::new(),
            by_used: BTreeMap::new(),
            by_room: [0; MOST_ANSWER + 1],
            free: 0,
        }
    }

    /// An addition, with so many words lent for the answer.
    pub fn addition(&mut self, mut addition: Addition, room: usize) {
        let expected = expected(&addition);
        self.count(&addition, room, expected.why);
        let asked = format!("{} {} {}", addition.used, addition.start, addition.length);
        let mut answer = with_guard(&vec![UNWRITTEN; room]);
        let number = (self.subject)(&mut addition, &mut answer[..room]);
        let mut told = expected.answer.to_vec();
        told.resize(MOST_ANSWER, UNWRITTEN);
        let told = with_guard(&told[..room]);
        let agrees = number == expected.answer[0]
            && answer == told
            && addition.words.names == expected.names;
        if !agrees {
            self.differing += 1;
            if self.differences.len() < KEPT {
                let number = self.additions;
                self.differences.push(format!(
                    "addition {number} ({asked}, {room} words): {:?} expected, got {:?}; {:?}",
                    expected.answer,
                    &answer[..answer.len() - GUARD],
                    addition
                ));
            }
        }
        self.additions += 1;
    }

    fn count(&mut self, addition: &Addition, room: usize, why: Why) {
        *self.by_why.entry(why).or_default() += 1;
        *self.by_used.entry(addition.used).or_default() += 1;
        self.by_room[room] += 1;
        self.free += u64::from(addition.words.names.len() > 2 * addition.used as usize);
    }

    /// Classes that were never met.
    pub fn unmet(&self) -> Vec<String> {
        let whys = ALL.iter().filter(|why| !self.by_why.contains_key(why));
        let used = NEAR_LIMIT.filter(|used| !self.by_used.contains_key(used));
        let rooms = (0..=MOST_ANSWER).filter(|&room| self.by_room[room] == 0);
        whys.map(|why| why.to_string())
            .chain(used.map(|used| format!("names in use: {used}")))
            .chain(rooms.map(|room| format!("words for the answer: {room}")))
            .collect()
    }
}

impl fmt::Display for Comparison {
    fn fmt(&self, f: &mut fmt::Formatter<'_>) -> fmt::Result {
        let line =
            |f: &mut fmt::Formatter<'_>, name: &str, count: u64| writeln!(f, "{name:42}{count:9}");
        for why in ALL {
            line(f, &why.to_string(), self.by_why.get(&why).copied().unwrap_or(0))?;
        }
        for used in NEAR_LIMIT {
            let count = self.by_used.get(&used).copied().unwrap_or(0);
            line(f, &format!("names in use: {used}"), count)?;
        }
        for (room, count) in self.by_room.iter().enumerate() {
            line(f, &format!("words for the answer: {room}"), *count)?;
        }
        line(f, "with places that are free", self.free)
    }
}

impl fmt::Display for Why {
    fn fmt(&self, f: &mut fmt::Formatter<'_>) -> fmt::Result {
        f.pad(match self {
            Self::Existing => "0: the name stands there",
            Self::Added => "0: added",
            Self::NamesOverLimit => "1: more than 128 names in use",
            Self::OverLimit => "1: another limit",
            Self::OddNames => "2: an odd number of words",
            Self::BeyondPlaces => "2: more names in use than places",
            Self::BreaksRules => "2: another rule of the tables",
            Self::TooDeep => "3",
            Self::EqualNames => "4",
            Self::NoByte => "2: a name of no byte",
            Self::TooLong => "2: a name of more than 255 bytes",
            Self::PastText => "2: a range that ends past the text",
            Self::NoPlace => "33: no place",
            Self::NoNumber => "33: a 129th name",
        })
    }
}
