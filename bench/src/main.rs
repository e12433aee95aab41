//! The library's calls and the published Rust planner on the same inputs.
//!
//!     bench time [PART ..] [--write]  medians, as tables; --write puts them into docs/PERFORMANCE.md
//!     bench growth FILE               medians against size, as the data of bench/plot
//!     bench lowest N                  the lowest ratios among edges, N drawn sheets and N changed ones
//!     bench count                     every job once, for callgrind
//!     bench counted FOLDER [--write]  the tables of what callgrind counted
//!
//! Parts are sheets, pages, planning, runs, bodies, examples and store; all of them without a PART.

mod callgrind;
mod clock;
mod counts;
mod growth;
mod inputs;
mod jobs;
mod lowest;
mod report;
mod store;
mod tables;
mod times;

use std::path::Path;
use std::process::ExitCode;

/// What is timed, by the name of its table.
const PARTS: [(&str, fn() -> Result<Vec<String>, String>); 7] = [
    ("sheets", times::sheets),
    ("pages", times::pages),
    ("planning", times::planning),
    ("runs", tables::runs::times),
    ("bodies", tables::bodies::times),
    ("examples", tables::examples::times),
    ("store", store::times),
];

const USAGE: &str = "usage: bench time [sheets | pages | planning | runs | bodies | examples | store ..] [--write] | growth FILE | lowest N | count | counted FOLDER [--write]";

fn main() -> ExitCode {
    let words: Vec<String> = std::env::args().skip(1).collect();
    let words: Vec<&str> = words.iter().map(String::as_str).collect();
    let done = match words[..] {
        ["time", ref parts @ .., "--write"] => time(parts, true),
        ["time", ref parts @ ..] => time(parts, false),
        ["growth", file] => growth::run(Path::new(file)),
        ["lowest", count] => match count.parse() {
            Ok(count) if count > 0 => lowest::run(count),
            _ => Err(format!("{count} is no number of sheets")),
        },
        ["count"] => counts::run(),
        ["counted", folder] => counts::report(Path::new(folder), false),
        ["counted", folder, "--write"] => counts::report(Path::new(folder), true),
        _ => Err(USAGE.into()),
    };
    if let Err(error) = done {
        eprintln!("bench: {error}");
        return ExitCode::FAILURE;
    }
    ExitCode::SUCCESS
}

fn time(asked: &[&str], write: bool) -> Result<(), String> {
    if let Some(part) = asked.iter().find(|part| PARTS.iter().all(|(name, _)| name != *part)) {
        return Err(format!("there is no part {part}; {USAGE}"));
    }
    for (name, times) in PARTS {
        if asked.is_empty() || asked.contains(&name) {
            let lines = times()?;
            if write {
                report::write_table(name, &lines)?;
            }
        }
    }
    Ok(())
}
