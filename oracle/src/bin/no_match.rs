//! no_match [--seed SEED] [N]: do shape refusals (12 to 16) mean that no values make the sides
//! equal? On all pairs of small sides and on N generated questions (100,000), by trying and by
//! unification.

use oracle::refusals::entry::LINKED;
use oracle::refusals::exhaustive::{self, is_compared};
use oracle::refusals::generate;
use oracle::refusals::trial::Trial;
use std::process::ExitCode;
use std::time::Instant;

struct Options {
    seed: u64,
    count: u64,
}

fn options() -> Option<Options> {
    let mut options = Options { seed: 1, count: 100_000 };
    let mut words = std::env::args().skip(1);
    while let Some(word) = words.next() {
        match word.as_str() {
            "--seed" => options.seed = words.next()?.parse().ok()?,
            count => options.count = count.parse().ok()?,
        }
    }
    Some(options)
}

fn main() -> ExitCode {
    let Some(options) = options() else {
        eprintln!("usage: no_match [--seed SEED] [N]");
        return ExitCode::from(2);
    };
    let Some(plan) = LINKED else {
        eprintln!("no_match: no library is linked (see README.md)");
        return ExitCode::from(2);
    };
    let start = Instant::now();
    let mut trial = Trial::new(plan);
    exhaustive::for_each_question(|question| {
        trial.question(question);
        if is_compared(question) {
            trial.compare(question);
        }
    });
    let questions = (0..options.count).map(|number| generate::question(options.seed, number));
    questions.for_each(|question| trial.question(&question));
    ExitCode::from(u8::from(!report(&trial, start.elapsed().as_secs())))
}

fn report(trial: &Trial, seconds: u64) -> bool {
    println!("keys that differ:\n{}", trial.differing);
    println!("keys that repeat:\n{}", trial.repeated);
    trial.faults.iter().for_each(|fault| println!("{fault}"));
    let [agreeing, equal] = trial.agreeing;
    print!("trying and unification agree on {agreeing} small pairs, of which {equal} can be ");
    println!("made equal; {} faults ({seconds} s)", trial.faulty);
    let none_equal = trial.differing.equal == 0 && trial.differing.collections[1] == 0;
    none_equal && trial.repeated.equal > 0 && trial.faulty == 0
}
