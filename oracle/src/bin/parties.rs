//! parties [CASES [SEED]]: holds CASES additions to the name table (100,000) against a second
//! reading, and carries a tenth as many histories of two parties out twice.

use oracle::parties::{adding, additions, calls, histories};
use std::process::ExitCode;
use std::time::Instant;

const CASES: u64 = 100_000;

fn options() -> Option<[u64; 2]> {
    let mut words = std::env::args().skip(1);
    let mut number = |default| match words.next() {
        Some(word) => word.parse().ok(),
        None => Some(default),
    };
    let options = [number(CASES)?, number(1)?];
    words.next().is_none().then_some(options)
}

fn main() -> ExitCode {
    let Some([cases, seed]) = options() else {
        eprintln!("usage: parties [CASES [SEED]]");
        return ExitCode::from(2);
    };
    let Some(calls) = calls::LINKED else {
        eprintln!("parties: no library is linked (see README.md)");
        return ExitCode::from(2);
    };
    let start = Instant::now();
    let mut adding = adding::Comparison::new(calls.add_name);
    for number in 0..cases {
        let (addition, room) = additions::addition(seed, number);
        adding.addition(addition, room);
    }
    let mut histories = histories::Comparison::new(calls);
    (0..cases / 10).for_each(|number| histories.history(seed, number));
    print!("{adding}{histories}");
    adding.differences.iter().for_each(|difference| println!("{difference}"));
    histories.differences.iter().for_each(|difference| println!("{difference}"));
    let unmet = [adding.unmet(), histories.unmet()].concat();
    unmet.iter().for_each(|class| println!("never met: {class}"));
    println!(
        "{} additions, {} differ; {} histories, {} differ ({} s)",
        adding.additions,
        adding.differing,
        histories.histories,
        histories.differing,
        start.elapsed().as_secs()
    );
    let agree = adding.differing == 0 && histories.differing == 0 && unmet.is_empty();
    ExitCode::from(u8::from(!agree))
}
