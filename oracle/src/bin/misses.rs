//! misses [CASES [SEED]]: holds the first miss of crate c_calls against a second reading, on so many
//! generated cases (100,000 of seed 1), and prints a tally. It fails too if an answer is never met.

use oracle::matching::generate;
use oracle::misses::comparison::Comparison;
use oracle::misses::entry;
use std::process::ExitCode;
use std::time::Instant;

fn options() -> Option<(u64, u64)> {
    let words: Vec<String> = std::env::args().skip(1).collect();
    let number =
        |place: usize, other: u64| words.get(place).map_or(Some(other), |word| word.parse().ok());
    (words.len() <= 2).then_some(())?;
    Some((number(0, 100_000)?, number(1, 1)?))
}

fn main() -> ExitCode {
    let Some((cases, seed)) = options() else {
        eprintln!("usage: misses [CASES [SEED]]");
        return ExitCode::from(2);
    };
    let Some(subject) = entry::LINKED else {
        eprintln!("misses: no library is linked (see README.md)");
        return ExitCode::from(2);
    };
    let start = Instant::now();
    let mut comparison = Comparison::new(subject);
    (0..cases).for_each(|number| comparison.case(generate::case(seed, number)));
    ExitCode::from(u8::from(!report(&comparison, start.elapsed().as_secs())))
}

fn report(comparison: &Comparison, seconds: u64) -> bool {
    print!("{}", comparison.tally);
    comparison.differences.iter().for_each(|difference| println!("{difference}"));
    let never_met = comparison.tally.never_met();
    if !never_met.is_empty() {
        println!("never met: {}; ask for more cases", never_met.join(", "));
    }
    let agreeing = comparison.cases - comparison.differing;
    print!("{} first misses compared, {agreeing} agree, ", comparison.cases);
    println!("{} differ ({seconds} s)", comparison.differing);
    comparison.differing == 0 && never_met.is_empty()
}
