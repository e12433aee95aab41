//! faults [CASES [SEED]]: holds CASES tables (100,000) with a word or a few changed against a second
//! reading of the tables' rules: the check's number, the rule and the place.

use oracle::faults::{calls, comparison::Comparison, generate};
use std::process::ExitCode;
use std::time::Instant;

const CASES: u64 = 100_000;

fn options() -> Option<[u64; 2]> {
    let mut words = std::env::args().skip(1);
    let mut number = |default| match words.next() {
        Some(word) => word.parse().ok(),
        None => Some(default),
    };
    let options = [number(CASES)?, number(1)?];
    words.next().is_none().then_some(options)
}

fn main() -> ExitCode {
    let Some([cases, seed]) = options() else {
        eprintln!("usage: faults [CASES [SEED]]");
        return ExitCode::from(2);
    };
    let Some(call) = calls::LINKED else {
        eprintln!("faults: no library is linked (see README.md)");
        return ExitCode::from(2);
    };
    let start = Instant::now();
    let mut comparison = Comparison::new(call);
    for number in 0..cases {
        let (case, room) = generate::case(seed, number);
        comparison.case(&case, room);
    }
    print!("{comparison}");
    comparison.differences.iter().for_each(|difference| println!("{difference}"));
    let unmet = comparison.unmet();
    unmet.iter().for_each(|class| println!("never met: {class}"));
    println!(
        "{} tables, {} differ ({} s)",
        comparison.cases,
        comparison.differing,
        start.elapsed().as_secs()
    );
    ExitCode::from(u8::from(comparison.differing > 0 || !unmet.is_empty()))
}
