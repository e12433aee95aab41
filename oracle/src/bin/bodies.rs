//! bodies [CASES [SEED]]: holds the rule body call of crate c_calls against a second reading of
//! document 02, slip 14, on CASES drawn bodies (100,000), and prints a tally. A class of bodies that
//! was never met is a failure, as a difference is.

use oracle::bodies::comparison::Comparison;
use oracle::bodies::entry::LINKED;
use oracle::bodies::generate;
use std::process::ExitCode;
use std::time::Instant;

fn numbers() -> Option<[u64; 2]> {
    let mut words = std::env::args().skip(1);
    let mut number = |unset| words.next().map_or(Some(unset), |word| word.parse().ok());
    let numbers = [number(100_000)?, number(1)?];
    words.next().is_none().then_some(numbers)
}

fn main() -> ExitCode {
    let Some([cases, seed]) = numbers() else {
        eprintln!("usage: bodies [CASES [SEED]]");
        return ExitCode::from(2);
    };
    let Some(subject) = LINKED else {
        eprintln!("bodies: no library is linked (see README.md)");
        return ExitCode::from(2);
    };
    let start = Instant::now();
    let mut comparison = Comparison::new(subject);
    (0..cases).for_each(|number| comparison.case(generate::case(seed, number)));
    ExitCode::from(u8::from(!report(&comparison, start.elapsed().as_secs())))
}

fn report(comparison: &Comparison, seconds: u64) -> bool {
    print!("{}", comparison.tally);
    comparison.differences.iter().for_each(|difference| println!("{difference}"));
    let missing = comparison.tally.missing();
    missing.iter().for_each(|class| println!("never met: {class}"));
    let agreeing = comparison.cases - comparison.differing;
    println!(
        "{} bodies compared, {agreeing} agree, {} differ ({seconds} s)",
        comparison.cases, comparison.differing
    );
    comparison.differing == 0 && missing.is_empty()
}
