//! compare [--oracle-only] [--exhaustive] [--seed SEED] [N]: holds the program under test against
//! the Rust on N generated sheets (100,000), or on all small ones, and prints a tally.

use oracle::comparison::Comparison;
use oracle::generate::{exhaustive, sheet};
use oracle::subject::LINKED;
use std::path::Path;
use std::process::ExitCode;

struct Options {
    oracle_only: bool,
    exhaustive: bool,
    seed: u64,
    count: u64,
}

fn options() -> Option<Options> {
    let mut options = Options { oracle_only: false, exhaustive: false, seed: 1, count: 100_000 };
    let mut words = std::env::args().skip(1);
    while let Some(word) = words.next() {
        match word.as_str() {
            "--oracle-only" => options.oracle_only = true,
            "--exhaustive" => options.exhaustive = true,
            "--seed" => options.seed = words.next()?.parse().ok()?,
            count => options.count = count.parse().ok()?,
        }
    }
    Some(options)
}

fn main() -> ExitCode {
    let Some(options) = options() else {
        eprintln!("usage: compare [--oracle-only] [--exhaustive] [--seed SEED] [N]");
        return ExitCode::from(2);
    };
    let subject = LINKED.filter(|_| !options.oracle_only);
    if subject.is_none() && !options.oracle_only {
        eprintln!("compare: no library is linked (see README.md); try --oracle-only");
        return ExitCode::from(2);
    }
    let mut comparison = Comparison::new(subject);
    if options.exhaustive {
        exhaustive::for_each_sheet(|sheet| comparison.sheet(sheet));
    } else {
        (0..options.count).for_each(|case| comparison.sheet(&sheet(options.seed, case)));
    }
    report(&comparison, subject.is_some())
}

fn report(comparison: &Comparison, compared: bool) -> ExitCode {
    print!("{}", comparison.tally);
    if !compared {
        println!("{} sheets answered by the oracle, none compared", comparison.sheets);
        return ExitCode::SUCCESS;
    }
    let folder = Path::new("target/differences");
    for (number, difference) in (1..).zip(&comparison.differences) {
        println!("difference {number}: {difference}");
        if let Err(error) = difference.save(folder, number) {
            eprintln!("compare: {}: {error}", folder.display());
        }
    }
    let agreeing = comparison.sheets - comparison.differing;
    println!(
        "{} sheets compared, {agreeing} agree, {} differ",
        comparison.sheets, comparison.differing
    );
    ExitCode::from(u8::from(comparison.differing > 0))
}
