//! A run that is asked for.

use crate::answer::ENTRY_WORDS;
use crate::parties::words::Words;
use crate::sheets::Draft;

#[derive(Clone, Debug, PartialEq)]
pub struct Case {
    /// The tables; the first root is the pattern, the second the value.
    pub draft: Draft,
    /// The scope's marks, of which 128 count.
    pub marks: Vec<u8>,
    pub scheduler: u32,
    pub scoping: u32,
    /// Value nodes by name number, 0 for none.
    pub values: Vec<u32>,
    /// The length of the plan buffer, in words.
    pub room: usize,
    /// The number of words lent for the answer.
    pub answer_room: usize,
    pub origin: Origin,
}

/// How a generated case was made.
#[derive(Clone, Copy, Debug, PartialEq, Eq, PartialOrd, Ord)]
pub enum Origin {
    /// The value is the pattern, filled.
    Filled,
    /// One occurrence of a name was filled with another value.
    Differing,
    /// The filled pattern was changed at one place.
    Changed,
    /// The value has nothing to do with the pattern.
    Unrelated,
    /// Something was done that mostly gives a refusal.
    Faulty,
}

impl Case {
    /// With the marks of the draft, an empty list and a buffer in which every plan fits.
    pub fn new(draft: Draft) -> Self {
        Self {
            marks: draft.names.iter().map(|name| name[2] as u8).collect(),
            scheduler: draft.scheduler,
            scoping: draft.scoping,
            values: vec![0; draft.names.len()],
            room: ENTRY_WORDS * draft.nodes.len(),
            answer_room: 4,
            origin: Origin::Unrelated,
            draft,
        }
    }

    /// The tables as they are lent.
    pub fn words(&self) -> Words {
        Words::of(&self.draft, &[])
    }

    pub fn pattern(&self) -> u32 {
        self.draft.roots[0]
    }

    pub fn value(&self) -> u32 {
        self.draft.roots[1]
    }

    /// The number of the name that has these bytes, or 0.
    pub fn name_number(&self, bytes: &[u8]) -> u32 {
        (1..=self.draft.names.len() as u32).find(|&name| self.is_named(name, bytes)).unwrap_or(0)
    }

    /// Whether the name of a number has these bytes.
    pub fn is_named(&self, name: u32, bytes: &[u8]) -> bool {
        let place = (name as usize).checked_sub(1);
        place.and_then(|place| self.draft.names.get(place)).is_some_and(|&[start, length, _]| {
            self.draft.text.get(start as usize..(start + length) as usize) == Some(bytes)
        })
    }

    /// Whether a name is unbound, by its number; `_` is not asked for.
    pub fn is_unbound(&self, name: u32) -> bool {
        let marks = self.marks.get(name as usize - 1).copied().unwrap_or(0);
        is_unbound(marks.into(), self.scheduler == 1, matches!(self.scoping, 2 | 4))
    }
}

/// Document 01, "Scope": 1 bound, 4 unbound, 8 local, 16 global.
pub fn is_unbound(marks: u32, scheduler: bool, shadowing: bool) -> bool {
    let has = |mark| marks & mark != 0;
    has(4) || scheduler && has(8) || shadowing || !(has(1) || has(16))
}
