//! Runs the rules on trial of document 01 and prints each by name.

use oracle::answer::answer;
use oracle::trials::trials;
use std::process::ExitCode;

fn main() -> ExitCode {
    let mut failed = 0;
    let trials = trials();
    for trial in &trials {
        let listing = answer(&trial.sheet).to_string();
        let verdict = if listing == trial.expected { "ok    " } else { "FAILED" };
        println!("{verdict} {}", trial.name);
        if listing != trial.expected {
            println!("expected:\n{}the oracle:\n{listing}", trial.expected);
            failed += 1;
        }
    }
    println!("{} passed, {failed} failed", trials.len() - failed);
    ExitCode::from(u8::from(failed > 0))
}
