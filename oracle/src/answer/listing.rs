//! Answers and their printed form.

use super::careful::Present;
use std::fmt;

pub struct Answer {
    /// None where the sheet could not be read.
    pub operation: Option<u32>,
    /// Whether scoping 3 or 4 was asked for, with any operation.
    pub careful: bool,
    /// The present reading's answer, where the careful one refuses by structure.
    pub present: Option<Present>,
    pub outcome: Outcome,
}

pub type Outcome = Result<Plan, Refusal>;

pub struct Plan {
    pub form: u32,
    pub side: u32,
    pub entries: Vec<Entry>,
}

#[derive(Clone, Copy, Debug, PartialEq, Eq)]
pub struct Entry {
    pub kind: u32,
    pub node: u32,
    pub children: u32,
    pub key: u32,
    /// Written position under its parent, from 1, or 0 (document 02, slip 6). The Rust has none.
    pub position: u32,
}

impl Entry {
    pub fn words(&self) -> [u32; ENTRY_WORDS] {
        [self.kind, self.node, self.children, self.key, self.position]
    }
}

pub const ENTRY_WORDS: usize = 5;

#[derive(Clone, Copy, Debug, PartialEq, Eq)]
pub struct Refusal {
    pub number: u32,
    pub place: u32,
    pub counts: [u32; 2],
}

impl Refusal {
    pub fn new(number: u32) -> Self {
        Self::at(number, 0)
    }

    pub fn at(number: u32, place: u32) -> Self {
        Self { number, place, counts: [0, 0] }
    }

    pub fn with_counts(self, counts: [u32; 2]) -> Self {
        Self { counts, ..self }
    }
}

impl Answer {
    /// Writes the listing and then zeros; the bytes of the listing, or 0 where it doesn't fit.
    pub fn write(&self, output: &mut [u8]) -> usize {
        let length = self.length();
        if output.len() < length {
            output.fill(0);
            return 0;
        }
        let (listing, rest) = output.split_at_mut(length);
        let (head, lines) = listing.split_at_mut(HEAD);
        line(head, &self.head());
        for (bytes, entry) in lines.chunks_exact_mut(LINE).zip(self.entries()) {
            line(bytes, &entry.words());
        }
        rest.fill(0);
        length
    }

    fn length(&self) -> usize {
        HEAD + LINE * self.entries().len()
    }

    fn entries(&self) -> &[Entry] {
        self.outcome.as_ref().map_or(&[], |plan| &plan.entries)
    }

    fn head(&self) -> [u32; 4] {
        match &self.outcome {
            Ok(plan) => [0, plan.form, plan.side, plan.entries.len() as u32],
            Err(refusal) => [refusal.number, refusal.place, refusal.counts[0], refusal.counts[1]],
        }
    }
}

impl fmt::Display for Answer {
    fn fmt(&self, f: &mut fmt::Formatter<'_>) -> fmt::Result {
        let mut listing = vec![0; self.length()];
        self.write(&mut listing);
        f.write_str(std::str::from_utf8(&listing).expect("digits, blanks and line feeds"))
    }
}

const COLUMN: usize = 6;
/// The first line, and an entry's.
pub const HEAD: usize = 4 * COLUMN + 1;
pub const LINE: usize = ENTRY_WORDS * COLUMN + 1;

fn line(line: &mut [u8], numbers: &[u32]) {
    for (column, number) in line.chunks_exact_mut(COLUMN).zip(numbers) {
        write(column, *number);
    }
    line[numbers.len() * COLUMN] = b'\n';
}

fn write(column: &mut [u8], number: u32) {
    column.fill(b' ');
    let mut rest = number;
    for byte in column.iter_mut().rev() {
        *byte = b'0' + (rest % 10) as u8;
        rest /= 10;
        if rest == 0 {
            return;
        }
    }
}
