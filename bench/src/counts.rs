//! Instruction counts by callgrind: every job once under `bench count`, one dump each.

use crate::callgrind::counted;
use crate::inputs::{inputs, over_tables, Input};
use crate::jobs::{Jobs, Side, SHEET_SIDES, TABLE_SIDES};
use crate::report;
use std::collections::BTreeMap;
use std::ffi::CString;
use std::fs;
use std::path::Path;

fn dump_name(input: &Input, side: Side) -> String {
    let side = match side {
        Side::Ours => "ours",
        Side::Rust => "rust",
        Side::Planning => "planning",
        Side::Tables => "tables",
        Side::TableCheck => "table check",
        Side::Pages => "pages",
    };
    format!("{} by {side}", input.name)
}

pub fn run() -> Result<(), String> {
    inputs().iter().try_for_each(|input| count(input, &SHEET_SIDES))?;
    over_tables().iter().try_for_each(|input| count(input, table_sides(input)))
}

/// The planning of an input that is measured as sheets too is counted there.
fn table_sides(input: &Input) -> &'static [Side] {
    if input.space > 0 {
        &TABLE_SIDES
    } else {
        &TABLE_SIDES[..2]
    }
}

fn count(input: &Input, sides: &[Side]) -> Result<(), String> {
    let mut jobs = Jobs::new(input)?;
    for &side in sides {
        if jobs.has(side) {
            jobs.run(side);
            let name = CString::new(dump_name(input, side)).expect("a name without a zero");
            counted(&name, || jobs.run(side));
        }
    }
    Ok(())
}

pub fn report(folder: &Path, write: bool) -> Result<(), String> {
    let counts = dumps(folder)?;
    let of = |input: &Input, side| counts.get(&dump_name(input, side)).copied();
    let head = "| Input | ours | Rust | Rust ÷ ours | planning alone | ÷ ours |";
    let sheets = report::table(
        head,
        inputs().iter().map(|input| sheet_line(input, SHEET_SIDES.map(|side| of(input, side)))),
    )?;
    let head = "| Input | `teluddru_plan` | of it the table check | planning alone | planning alone ÷ `teluddru_plan` |";
    let line = |input: Input| planning_line(&input, TABLE_SIDES.map(|side| of(&input, side)));
    let planning = report::table(head, over_tables().into_iter().map(line))?;
    if write {
        report::write_table("counts", &sheets)?;
        report::write_table("counts of planning", &planning)?;
    }
    Ok(())
}

fn sheet_line(input: &Input, counts: [Option<u64>; 3]) -> Result<String, String> {
    let [Some(ours), rust, planning] = counts else { return Err(uncounted(input)) };
    let times = |count: Option<u64>| report::times(count.map(|count| count as f64 / ours as f64));
    let [own, rust_count, planning_count] = counts.map(report::count);
    let columns = [own, rust_count, times(rust), planning_count, times(planning)];
    Ok(report::line(&input.name, &columns))
}

fn planning_line(input: &Input, counts: [Option<u64>; 3]) -> Result<String, String> {
    let [Some(plan), Some(_), Some(planning)] = counts else { return Err(uncounted(input)) };
    let [plan_count, check, planning_count] = counts.map(report::count);
    let ratio = report::ratio(planning as f64 / plan as f64);
    Ok(report::line(&input.name, &[plan_count, check, planning_count, ratio]))
}

fn uncounted(input: &Input) -> String {
    format!("no count of {}", input.name)
}

/// The instructions of each dump by its name.
fn dumps(folder: &Path) -> Result<BTreeMap<String, u64>, String> {
    let unread = |error| format!("{}: {error}", folder.display());
    let mut counts = BTreeMap::new();
    for entry in fs::read_dir(folder).map_err(unread)? {
        let dump = fs::read_to_string(entry.map_err(unread)?.path()).map_err(unread)?;
        let after = |word| dump.lines().find_map(|line| line.strip_prefix(word));
        let name = after("desc: Trigger: Client Request: ");
        let total = after("totals: ").and_then(|total| total.trim().parse().ok());
        if let (Some(name), Some(total)) = (name, total) {
            counts.insert(name.to_string(), total);
        }
    }
    Ok(counts)
}
