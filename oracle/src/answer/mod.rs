//! A sheet in, its listing out: reading and table check are ours, plans and refusals 11 to 18 are
//! the Rust's, but for 13 and 14 in the careful reading.

mod careful;
pub(crate) mod check;
mod expr;
mod layout;
mod listing;
mod operation;
mod partners;
mod ready;
mod scope;
mod sheet;
pub(crate) mod tables;
mod texts;

pub use careful::Present;
pub use listing::{Answer, Entry, Outcome, Refusal, ENTRY_WORDS, HEAD, LINE};
pub use operation::CAPACITY;
pub use ready::{Planned, Ready};

/// What documents 01 and 02 say of a sheet.
pub fn answer(bytes: &[u8]) -> Answer {
    match sheet::read(bytes) {
        Ok(sheet) => {
            let (outcome, present) = plan(&sheet);
            let operation = Some(sheet.operation);
            Answer { operation, careful: sheet.is_careful(), present, outcome }
        }
        Err(refusal) => {
            Answer { operation: None, careful: false, present: None, outcome: Err(refusal) }
        }
    }
}

/// With the present reading's answer where the careful one refuses by structure.
fn plan(sheet: &sheet::Sheet) -> (Outcome, Option<Present>) {
    let ready = match checked(sheet) {
        Ok(ready) => ready,
        Err(refusal) => return (Err(refusal), None),
    };
    if sheet.is_careful() {
        careful::outcome(&ready, ready.plan())
    } else {
        (operation::outcome(&ready, ready.plan()), None)
    }
}

fn checked(sheet: &sheet::Sheet) -> Result<Ready, Refusal> {
    check::check(&sheet.tables)?;
    Ready::new(sheet)
}

/// What the Rust is called with for a sheet.
pub fn ready(bytes: &[u8]) -> Result<Ready, Refusal> {
    checked(&sheet::read(bytes)?)
}
