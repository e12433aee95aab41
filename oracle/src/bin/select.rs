//! Writes a list of the oracle's answers to standard output, chosen from the sheets of compare.

use oracle::selection::select;
use std::io::{self, BufWriter, Write};

const SEED: u64 = 1;
const SHEETS: u64 = 100_000;

fn main() -> io::Result<()> {
    let cases = select(SEED, SHEETS);
    let mut output = BufWriter::new(io::stdout().lock());
    cases.iter().try_for_each(|case| case.write(&mut output))?;
    output.flush()?;
    eprintln!("{} cases", cases.len());
    Ok(())
}
