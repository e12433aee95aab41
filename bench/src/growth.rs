//! Time against size, a block for each shape. Size is the nodes of a sheet and the entries of its plan.

use crate::inputs::{shapes, Input, Shape};
use crate::jobs::{entries, SHEET_SIDES};
use crate::times::times;
use std::fmt::Write;
use std::fs;
use std::path::Path;

const SAMPLES: usize = 31;
const STEPS: u32 = 6;

pub fn run(file: &Path) -> Result<(), String> {
    let mut data = String::new();
    for shape in shapes() {
        writeln!(data, "\"{}\"", shape.name).expect("a string takes all text");
        for step in (0..=STEPS).rev() {
            data += &line(&shape, (shape.limit >> step).max(1))?;
        }
        data += "\n\n";
    }
    fs::write(file, data).map_err(|error| format!("{}: {error}", file.display()))
}

/// Size, then the microseconds of ours, of the Rust and of its planning alone.
fn line(shape: &Shape, size: usize) -> Result<String, String> {
    let draft = (shape.draft)(size);
    let input = Input::of_sheets(&shape.name, vec![draft.bytes()]);
    let times = times(&input, &SHEET_SIDES, SAMPLES)?;
    let micros = SHEET_SIDES
        .map(|side| times.median(side).map_or("-".into(), |time| format!("{:.3}", time * 1e6)));
    Ok(format!("{} {}\n", draft.nodes.len() + entries(&input.sheets[0]), micros.join(" ")))
}
