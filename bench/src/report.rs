//! Numbers as they are printed, and the tables of docs/PERFORMANCE.md.

use std::fs;
use std::path::Path;

const NONE: &str = "–";

pub fn ratio(value: f64) -> String {
    if value < 10.0 {
        format!("{value:.2}")
    } else {
        format!("{value:.0}")
    }
}

/// A ratio, if there is one.
pub fn times(value: Option<f64>) -> String {
    value.map_or(NONE.into(), ratio)
}

/// Seconds as microseconds, if there are any.
pub fn micros(seconds: Option<f64>) -> String {
    seconds.map_or(NONE.into(), |seconds| format!("{:.1}", seconds * 1e6))
}

/// A count, if there is one.
pub fn count(count: Option<u64>) -> String {
    count.map_or(NONE.into(), thousands)
}

/// With commas.
pub fn thousands(count: u64) -> String {
    let digits = count.to_string();
    let mut text = String::new();
    for (place, digit) in digits.char_indices() {
        if place > 0 && (digits.len() - place) % 3 == 0 {
            text.push(',');
        }
        text.push(digit);
    }
    text
}

/// A line of a table.
pub fn line(name: &str, columns: &[String]) -> String {
    format!("| {name} | {} |", columns.join(" | "))
}

/// A table of numbers; its lines are printed as they are made.
pub fn table(
    head: &str,
    lines: impl Iterator<Item = Result<String, String>>,
) -> Result<Vec<String>, String> {
    let columns = head.matches(" | ").count();
    let mut table = vec![head.to_string(), format!("|---|{}", "--:|".repeat(columns))];
    table.iter().for_each(|line| println!("{line}"));
    for line in lines {
        let line = line?;
        println!("{line}");
        table.push(line);
    }
    Ok(table)
}

/// Puts the lines between the two comments of this name.
pub fn write_table(name: &str, lines: &[String]) -> Result<(), String> {
    let path = Path::new(concat!(env!("CARGO_MANIFEST_DIR"), "/../docs/PERFORMANCE.md"));
    let text = fs::read_to_string(path).map_err(|error| format!("{}: {error}", path.display()))?;
    let (open, close) = (format!("<!-- {name} -->\n"), format!("<!-- end of {name} -->\n"));
    let parted = text
        .split_once(&open)
        .and_then(|(before, rest)| rest.split_once(&close).map(|(_, after)| (before, after)));
    let (before, after) = parted.ok_or_else(|| format!("no {open} in docs/PERFORMANCE.md"))?;
    let new = format!("{before}{open}{}\n{close}{after}", lines.join("\n"));
    fs::write(path, new).map_err(|error| format!("{}: {error}", path.display()))
}
