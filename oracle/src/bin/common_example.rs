//! common_example [--exhaustive | CASES [SEED]]: holds the common example of crate c_calls against a
//! second reading of document 02, slip 13, on so many drawn pairs of patterns (100,000 of seed 1) or
//! on all small ones, and runs both patterns on each example. Drawn pairs have to meet each class of
//! the tally; small ones are held against all small values too.

use oracle::common_example::comparison::Comparison;
use oracle::common_example::exhaustive::Exhaustive;
use oracle::common_example::{entry, generate};
use oracle::matching;
use std::process::ExitCode;
use std::time::Instant;

enum Options {
    Exhaustive,
    Drawn { cases: u64, seed: u64 },
}

fn options() -> Option<Options> {
    let words: Vec<String> = std::env::args().skip(1).collect();
    if words == ["--exhaustive"] {
        return Some(Options::Exhaustive);
    }
    let number =
        |place: usize, other: u64| words.get(place).map_or(Some(other), |word| word.parse().ok());
    (words.len() <= 2).then_some(())?;
    Some(Options::Drawn { cases: number(0, 100_000)?, seed: number(1, 1)? })
}

fn main() -> ExitCode {
    let Some(options) = options() else {
        eprintln!("usage: common_example [--exhaustive | CASES [SEED]]");
        return ExitCode::from(2);
    };
    let (Some(subject), Some(run)) = (entry::LINKED, matching::entry::LINKED) else {
        eprintln!("common_example: no library is linked (see README.md)");
        return ExitCode::from(2);
    };
    let start = Instant::now();
    let mut comparison = Comparison::new(subject, run);
    let is_whole = match options {
        Options::Exhaustive => {
            let mut exhaustive = Exhaustive::default();
            exhaustive.for_each_pair(|pair| comparison.case(pair));
            report_values(&exhaustive)
        }
        Options::Drawn { cases, seed } => {
            (0..cases).for_each(|number| comparison.case(generate::case(seed, number)));
            report_classes(&comparison)
        }
    };
    let agrees = report(&comparison, start.elapsed().as_secs());
    ExitCode::from(u8::from(!(agrees && is_whole)))
}

fn report_values(exhaustive: &Exhaustive) -> bool {
    let Exhaustive { overlapping, contradictions, .. } = exhaustive;
    let [values, templates] = exhaustive.counts();
    contradictions.iter().take(20).for_each(|pair| println!("other values: {pair}"));
    print!("held against {values} values: {overlapping} pairs match one both, ");
    println!("{templates} templates, {} pairs contradict", contradictions.len());
    contradictions.is_empty()
}

fn report_classes(comparison: &Comparison) -> bool {
    let never_met = comparison.tally.never_met();
    if !never_met.is_empty() {
        println!("never met: {}; ask for more cases", never_met.join(", "));
    }
    never_met.is_empty()
}

fn report(comparison: &Comparison, seconds: u64) -> bool {
    print!("{}", comparison.tally);
    comparison.differences.iter().for_each(|difference| println!("{difference}"));
    let [found, none, large, refused] = comparison.tally.answers();
    println!("{found} examples, {none} times none, {large} times 36, {refused} other refusals");
    let Comparison { cases, runs, differing, .. } = comparison;
    print!("{cases} pairs of patterns compared, {runs} runs on examples, ");
    println!("{} agree, {differing} differ ({seconds} s)", cases - differing);
    *differing == 0
}
