//! What is measured on the inputs: a sheet in, its listing out, by the library and by the Rust; the
//! planning call over tables; and the Rust's planning alone.

use crate::inputs::Input;
use crate::tables::lent::{Lent, Space};
use oracle::answer::{answer, ready, Answer, Ready, CAPACITY, HEAD, LINE};
use oracle::subject::{pages, LINKED};
use std::hint::black_box;

/// The longest listing: a line and as many entries as the plan buffer has space for.
const LISTING_BYTES: usize = HEAD + LINE * CAPACITY;
/// No plan has more pages.
const PAGES_BYTES: usize = 113_880;

#[derive(Clone, Copy, PartialEq)]
pub enum Side {
    /// The static library.
    Ours,
    /// The Rust behind the oracle's reader and printer.
    Rust,
    /// The Rust's call, with its expressions and scope made beforehand.
    Planning,
    /// `teluddru_plan`, with its tables made beforehand.
    Tables,
    /// The same, refused with 5 after the table check.
    TableCheck,
    /// `teluddru_pages`.
    Pages,
}

pub const SIDES: usize = 6;
pub const SHEET_SIDES: [Side; 3] = [Side::Ours, Side::Rust, Side::Planning];
pub const TABLE_SIDES: [Side; 3] = [Side::Tables, Side::TableCheck, Side::Planning];

/// An input with the output, the trees and the tables that its jobs work on.
pub struct Jobs<'a> {
    input: &'a Input,
    output: Vec<u8>,
    pages: Vec<u8>,
    /// Of the sheets that come as far as the Rust's call.
    trees: Vec<Ready>,
    tables: Vec<Lent>,
    space: Space,
}

impl<'a> Jobs<'a> {
    /// Fails where the two listings of a sheet differ, or the plan over tables.
    pub fn new(input: &'a Input) -> Result<Self, String> {
        let trees = input.sheets.iter().filter_map(|sheet| ready(sheet).ok()).collect();
        let tables: Vec<Lent> = input.drafts.iter().map(Lent::of).collect();
        let entries = input.sheets.iter().map(|sheet| entries(sheet)).max();
        let space = Space::for_plans(entries.max(Some(input.space)));
        let (output, pages) = (vec![0; LISTING_BYTES], vec![0; PAGES_BYTES]);
        let mut jobs = Self { input, output, pages, trees, tables, space };
        for sheet in &input.sheets {
            let ours = jobs.output_of(sheet, ours);
            if ours != jobs.output_of(sheet, rust) {
                return Err(format!("the listings of {} differ", input.name));
            }
        }
        for (sheet, tables) in input.sheets.iter().zip(&mut jobs.tables) {
            let (planned, space) = (answer(sheet), &mut jobs.space);
            if tables.plan(space) != number(&planned) || space.entries() != words(&planned) {
                return Err(format!("the plans of {} over tables differ", input.name));
            }
        }
        Ok(jobs)
    }

    fn output_of(&mut self, sheet: &[u8], job: fn(&[u8], &mut [u8]) -> usize) -> (usize, Vec<u8>) {
        self.output.fill(0xa5);
        (job(sheet, &mut self.output), self.output.clone())
    }

    /// Whether the side has anything to do.
    pub fn has(&self, side: Side) -> bool {
        match side {
            Side::Ours | Side::Rust | Side::Pages => true,
            Side::Planning => !self.trees.is_empty(),
            Side::Tables | Side::TableCheck => !self.tables.is_empty(),
        }
    }

    /// Does a side's job on all sheets of the input.
    pub fn run(&mut self, side: Side) {
        match side {
            Side::Ours => self.on_sheets(ours),
            Side::Rust => self.on_sheets(rust),
            Side::Planning => self.trees.iter().for_each(|tree| drop(black_box(tree.plan()))),
            Side::Tables => self.on_tables(Lent::plan),
            Side::TableCheck => self.on_tables(Lent::check),
            Side::Pages => {
                self.on_pages();
            }
        }
    }

    /// How many pages the sheets fill.
    pub fn on_pages(&mut self) -> u64 {
        let mut filled = 0;
        for sheet in &self.input.sheets {
            let mut answer = [0; 4];
            black_box(pages(black_box(sheet), &mut self.pages, &mut answer));
            filled += if answer[0] == 0 { u64::from(answer[1]) } else { 0 };
        }
        filled
    }

    fn on_sheets(&mut self, job: fn(&[u8], &mut [u8]) -> usize) {
        for sheet in &self.input.sheets {
            black_box(job(black_box(sheet), &mut self.output));
        }
    }

    fn on_tables(&mut self, call: fn(&mut Lent, &mut Space) -> u32) {
        for tables in &mut self.tables {
            black_box(call(black_box(tables), &mut self.space));
        }
    }
}

fn ours(sheet: &[u8], output: &mut [u8]) -> usize {
    LINKED.expect("PLAN_SHEET_LIBRARY names the library at the build")(sheet, output)
}

fn rust(sheet: &[u8], output: &mut [u8]) -> usize {
    answer(sheet).write(output)
}

/// The entries of a sheet's plan.
pub fn entries(sheet: &[u8]) -> usize {
    answer(sheet).outcome.map_or(0, |plan| plan.entries.len())
}

fn number(answer: &Answer) -> u32 {
    answer.outcome.as_ref().map_or_else(|refusal| refusal.number, |_| 0)
}

fn words(answer: &Answer) -> Vec<u32> {
    let entries = answer.outcome.as_ref().map_or(&[][..], |plan| &plan.entries[..]);
    entries.iter().flat_map(|entry| entry.words()).collect()
}
