//! match [--exhaustive] [--seed SEED] [N]: holds the run of crate c_calls against a matcher that
//! tries all fillings, on N generated cases (100,000) or on all small ones, and prints a tally; and
//! the names report against a second reading, on N generated patterns.

use oracle::matching::comparison::Comparison;
use oracle::matching::entry::LINKED;
use oracle::matching::{exhaustive, generate};
use oracle::reporting;
use std::process::ExitCode;
use std::time::Instant;

struct Options {
    exhaustive: bool,
    seed: u64,
    count: u64,
}

fn options() -> Option<Options> {
    let mut options = Options { exhaustive: false, seed: 1, count: 100_000 };
    let mut words = std::env::args().skip(1);
    while let Some(word) = words.next() {
        match word.as_str() {
            "--exhaustive" => options.exhaustive = true,
            "--seed" => options.seed = words.next()?.parse().ok()?,
            count => options.count = count.parse().ok()?,
        }
    }
    Some(options)
}

fn main() -> ExitCode {
    let Some(options) = options() else {
        eprintln!("usage: match [--exhaustive] [--seed SEED] [N]");
        return ExitCode::from(2);
    };
    let (Some(subject), Some(reporter)) = (LINKED, reporting::entry::LINKED) else {
        eprintln!("match: no library is linked (see README.md)");
        return ExitCode::from(2);
    };
    let start = Instant::now();
    let mut comparison = Comparison::new(subject);
    if options.exhaustive {
        exhaustive::for_each_case(|case| comparison.case(case));
    } else {
        let cases = (0..options.count).map(|number| generate::case(options.seed, number));
        cases.for_each(|case| comparison.case(case));
    }
    let mut reports = reporting::comparison::Comparison::new(reporter);
    (0..options.count).for_each(|number| reports.case(&reporting::case(options.seed, number)));
    let agree = report(&comparison, start.elapsed().as_secs()) & report_names(&reports);
    ExitCode::from(u8::from(!agree))
}

fn report_names(reports: &reporting::comparison::Comparison) -> bool {
    reports.differences.iter().for_each(|difference| println!("{difference}"));
    let agreeing = reports.cases - reports.differing;
    print!("{} names reports compared, {agreeing} agree, ", reports.cases);
    print!("{} differ ({} bound, ", reports.differing, reports.bound);
    println!("{} met or keys, {} refusals)", reports.met, reports.refusals);
    reports.differing == 0
}

fn report(comparison: &Comparison, seconds: u64) -> bool {
    print!("{}", comparison.tally);
    comparison.differences.iter().for_each(|difference| println!("{difference}"));
    let agreeing = comparison.cases - comparison.differing;
    println!(
        "{} runs compared, {agreeing} agree, {} differ ({seconds} s)",
        comparison.cases, comparison.differing
    );
    comparison.differing == 0
}
