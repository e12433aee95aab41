//! Prints the oracle's listing of the sheet on standard input.

use oracle::answer::answer;
use std::io::{self, Read};

fn main() -> io::Result<()> {
    let mut sheet = Vec::new();
    io::stdin().read_to_end(&mut sheet)?;
    print!("{}", answer(&sheet));
    Ok(())
}
