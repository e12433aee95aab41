//! The lowest ratios to the Rust among many small sheets.

use crate::inputs::{edges, Input};
use crate::jobs::Side;
use crate::report::ratio;
use crate::times::times;
use oracle::answer::answer;
use oracle::generate::{sheet, Random};

const SEED: u64 = 1;
const SAMPLES: usize = 11;
/// A sheet that comes near the Rust's time is measured anew, with more samples.
const NEAR: f64 = 1.1;
const MORE_SAMPLES: usize = 301;
/// What is below its bar is listed, and at least so many of the lowest ratios.
const LISTED: usize = 5;

/// The bars of docs/PERFORMANCE.md.
const PLANNED_BAR: f64 = 1.0;
const REFUSED_BAR: f64 = 0.7;

struct Measured {
    /// The Rust's time over ours.
    ratio: f64,
    planned: bool,
    name: String,
}

pub fn run(count: u64) -> Result<(), String> {
    report("at the edges", edges().into_iter())?;
    report("drawn", (0..count).map(|case| input(case, sheet(SEED, case))))?;
    report("with a byte changed", (0..count).map(|case| input(case, changed(case))))
}

fn input(case: u64, sheet: Vec<u8>) -> Input {
    Input::of_sheets(format!("sheet {case} of {} bytes", sheet.len()), vec![sheet])
}

/// A drawn sheet with another byte somewhere, half the time near its start.
fn changed(case: u64) -> Vec<u8> {
    let mut bytes = sheet(SEED, case);
    let random = &mut Random::of_case(SEED + 1, case);
    if !bytes.is_empty() {
        let end = if random.chance(50) { bytes.len() } else { bytes.len().min(400) };
        let place = random.below(end);
        bytes[place] = *random.pick(b" 0123456789x-\n");
    }
    bytes
}

fn report(title: &str, inputs: impl Iterator<Item = Input>) -> Result<(), String> {
    let mut measured = inputs.map(measured).collect::<Result<Vec<_>, _>>()?;
    measured.sort_by(|one, other| one.ratio.total_cmp(&other.ratio));
    let (planned, refused) = measured.into_iter().partition(|one| one.planned);
    list(&format!("{title}, planned"), PLANNED_BAR, planned);
    list(&format!("{title}, refused"), REFUSED_BAR, refused);
    Ok(())
}

/// The ratios of a group, from the lowest on.
fn list(title: &str, bar: f64, measured: Vec<Measured>) {
    let Some(least) = measured.first() else {
        println!("no sheets {title}");
        return;
    };
    let below = measured.iter().filter(|one| one.ratio < bar).count();
    let at = |part: f64| ratio(measured[(part * (measured.len() - 1) as f64) as usize].ratio);
    println!(
        "{} sheets {title}: {below} below {bar}, least {:.3}, a hundredth below {}, median {}",
        measured.len(),
        least.ratio,
        at(0.01),
        at(0.5)
    );
    for one in measured.iter().take(below.max(LISTED)) {
        println!("    {:.3} {}", one.ratio, one.name);
    }
}

fn measured(input: Input) -> Result<Measured, String> {
    let mut ratio = ratio_of(&input, SAMPLES)?;
    if ratio < NEAR {
        ratio = ratio_of(&input, MORE_SAMPLES)?;
    }
    let listing = answer(&input.sheets[0]).to_string();
    let line = listing.lines().next().unwrap_or_default().trim();
    let planned = line.starts_with("0 ");
    Ok(Measured { ratio, planned, name: format!("{}, answered {line}", input.name) })
}

fn ratio_of(input: &Input, samples: usize) -> Result<f64, String> {
    let times = times(input, &[Side::Ours, Side::Rust], samples)?;
    Ok(times.ratio(Side::Rust, Side::Ours).unwrap_or(f64::NAN))
}
