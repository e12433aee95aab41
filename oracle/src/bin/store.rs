//! store [--seed SEED] [N]: holds the plan store's calls of crate store_calls against document 02's
//! text and the documented layout, on N generated histories (100,000), and prints a tally.

use oracle::plan_store::comparison::Comparison;
use oracle::plan_store::entry::LINKED;
use std::process::ExitCode;
use std::time::Instant;

struct Options {
    seed: u64,
    count: u64,
}

fn options() -> Option<Options> {
    let mut options = Options { seed: 1, count: 100_000 };
    let mut words = std::env::args().skip(1);
    while let Some(word) = words.next() {
        match word.as_str() {
            "--seed" => options.seed = words.next()?.parse().ok()?,
            count => options.count = count.parse().ok()?,
        }
    }
    Some(options)
}

fn main() -> ExitCode {
    let Some(options) = options() else {
        eprintln!("usage: store [--seed SEED] [N]");
        return ExitCode::from(2);
    };
    let Some(calls) = LINKED else {
        eprintln!("store: no library is linked (see README.md)");
        return ExitCode::from(2);
    };
    let start = Instant::now();
    let mut comparison = Comparison::new(calls);
    (0..options.count).for_each(|number| comparison.history(options.seed, number));
    ExitCode::from(u8::from(!report(&comparison, start.elapsed().as_secs())))
}

fn report(comparison: &Comparison, seconds: u64) -> bool {
    let Comparison { tally, histories, differing, .. } = comparison;
    print!("{tally}");
    comparison.differences.iter().for_each(|difference| println!("{difference}"));
    let unmet = tally.unmet();
    unmet.iter().for_each(|class| println!("never met: {class}"));
    print!("{histories} histories of {} steps compared, ", tally.steps());
    println!("{} agree, {differing} differ ({seconds} s)", histories - differing);
    *differing == 0 && unmet.is_empty()
}
