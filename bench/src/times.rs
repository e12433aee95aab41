//! Medians of repeated runs.

use crate::clock::{by_turns, median, ratio};
use crate::inputs::{inputs, over_tables, Input};
use crate::jobs::{Jobs, Side, SHEET_SIDES, SIDES, TABLE_SIDES};
use crate::report;

const SAMPLES: usize = 61;

/// A sheet in, its listing out.
pub fn sheets() -> Result<Vec<String>, String> {
    let head = "| Input | ours µs | Rust µs | Rust ÷ ours | planning alone µs | ÷ ours |";
    report::table(
        head,
        inputs().iter().map(|input| sheet_line(input, &times(input, &SHEET_SIDES, SAMPLES)?)),
    )
}

fn sheet_line(input: &Input, times: &Times) -> Result<String, String> {
    let [ours, rust, planning] = SHEET_SIDES.map(|side| report::micros(times.median(side)));
    let ratio = |side| report::times(times.ratio(side, Side::Ours));
    let columns = [ours, rust, ratio(Side::Rust), planning, ratio(Side::Planning)];
    Ok(report::line(&input.name, &columns))
}

/// The planning call over tables.
pub fn planning() -> Result<Vec<String>, String> {
    let head = "| Input | `teluddru_plan` µs | of it the table check µs | planning alone µs | planning alone ÷ `teluddru_plan` |";
    let line = |input: Input| planning_line(&input, &times(&input, &TABLE_SIDES, SAMPLES)?);
    report::table(head, over_tables().into_iter().map(line))
}

fn planning_line(input: &Input, times: &Times) -> Result<String, String> {
    let [plan, check, planning] = TABLE_SIDES.map(|side| report::micros(times.median(side)));
    let ratio = report::times(times.ratio(Side::Planning, Side::Tables));
    Ok(report::line(&input.name, &[plan, check, planning, ratio]))
}

/// A sheet in, its pages out.
pub fn pages() -> Result<Vec<String>, String> {
    let planned = inputs().into_iter().filter(|input| !input.drafts.is_empty());
    report::table("| Input | pages | `teluddru_pages` µs |", planned.map(pages_line))
}

fn pages_line(input: Input) -> Result<String, String> {
    let filled = report::thousands(Jobs::new(&input)?.on_pages());
    let time = times(&input, &[Side::Pages], SAMPLES)?.median(Side::Pages);
    Ok(report::line(&input.name, &[filled, report::micros(time)]))
}

/// Seconds of one run of each side, sample by sample; none of a side that has nothing to do.
pub struct Times {
    samples: [Vec<f64>; SIDES],
}

impl Times {
    pub fn median(&self, side: Side) -> Option<f64> {
        median(self.samples[side as usize].clone())
    }

    /// A side's time over another's.
    pub fn ratio(&self, side: Side, other: Side) -> Option<f64> {
        ratio(&self.samples[side as usize], &self.samples[other as usize])
    }
}

pub fn times(input: &Input, sides: &[Side], samples: usize) -> Result<Times, String> {
    let mut jobs = Jobs::new(input)?;
    let sides: Vec<Side> = sides.iter().copied().filter(|&side| jobs.has(side)).collect();
    let mut times = Times { samples: Default::default() };
    let taken = by_turns(sides.len(), samples, |job| jobs.run(sides[job]));
    for (side, taken) in sides.iter().zip(taken) {
        times.samples[*side as usize] = taken;
    }
    Ok(times)
}
