//! Holds the program under test against the oracle, and counts.

use crate::answer::{answer, CAPACITY, HEAD, LINE};
use crate::subject::PlanSheet;
use crate::tally::Tally;
use std::path::Path;
use std::{fmt, fs, io};

/// The longest listing: a head and as many entries as the plan buffer has space for.
const LONGEST: usize = HEAD + LINE * CAPACITY;
const GUARD: usize = 16;
const UNWRITTEN: u8 = 0xa5;

pub struct Comparison {
    subject: Option<PlanSheet>,
    pub tally: Tally,
    pub sheets: u64,
    pub differences: Vec<Difference>,
    pub differing: u64,
}

pub struct Difference {
    sheet: Vec<u8>,
    room: usize,
    expected: Output,
    actual: Output,
}

#[derive(PartialEq)]
struct Output {
    written: usize,
    /// The output, and after it bytes that are not the subject's.
    bytes: Vec<u8>,
}

/// Differences beyond these are counted alone.
const KEPT: usize = 20;

impl Comparison {
    /// Without a subject the oracle's answers are tallied alone.
    pub fn new(subject: Option<PlanSheet>) -> Self {
        let tally = Tally::default();
        Self { subject, tally, sheets: 0, differences: Vec::new(), differing: 0 }
    }

    pub fn sheet(&mut self, sheet: &[u8]) {
        let answer = answer(sheet);
        self.tally.add(&answer);
        if let Some(subject) = self.subject {
            let listing = answer.to_string();
            let room = room(self.sheets, listing.len());
            self.compare(subject, sheet, listing.as_bytes(), room);
        }
        self.sheets += 1;
    }

    fn compare(&mut self, subject: PlanSheet, sheet: &[u8], listing: &[u8], room: usize) {
        let expected = expected(listing, room);
        let actual = actual(subject, sheet, room);
        if actual != expected {
            self.differing += 1;
            if self.differences.len() < KEPT {
                let sheet = sheet.to_vec();
                self.differences.push(Difference { sheet, room, expected, actual });
            }
        }
    }
}

/// The output's length in turn: short by one, none, exact, the longest, and mostly a little more.
fn room(turn: u64, listing: usize) -> usize {
    match turn % 16 {
        0 => listing - 1,
        1 => 0,
        2 => listing,
        3 => LONGEST,
        _ => listing + 64,
    }
}

fn expected(listing: &[u8], room: usize) -> Output {
    let written = if listing.len() <= room { listing } else { &[] };
    let mut bytes = written.to_vec();
    bytes.resize(room, 0);
    bytes.resize(room + GUARD, UNWRITTEN);
    Output { written: written.len(), bytes }
}

fn actual(subject: PlanSheet, sheet: &[u8], room: usize) -> Output {
    let mut bytes = vec![UNWRITTEN; room + GUARD];
    let written = subject(sheet, &mut bytes[..room]);
    Output { written, bytes }
}

impl Difference {
    /// Writes the sheet and both outputs, whole, into a folder.
    pub fn save(&self, folder: &Path, number: usize) -> io::Result<()> {
        fs::create_dir_all(folder)?;
        fs::write(folder.join(format!("{number}.sheet")), &self.sheet)?;
        fs::write(folder.join(format!("{number}.expected")), &self.expected.bytes[..self.room])?;
        fs::write(folder.join(format!("{number}.actual")), &self.actual.bytes[..self.room])
    }
}

impl fmt::Display for Difference {
    fn fmt(&self, f: &mut fmt::Formatter<'_>) -> fmt::Result {
        let Self { room, expected, actual, .. } = self;
        let beyond = actual.bytes[*room..] != expected.bytes[*room..];
        write!(
            f,
            "output of {room} bytes: {} to write, {} told",
            expected.written, actual.written
        )?;
        f.write_str(if beyond { ", wrote beyond it" } else { "" })
    }
}
