//! The inputs: a kitchen, rules of limit size, refused sheets.

mod edges;
mod kitchen;
mod refused;
mod shapes;

pub use edges::inputs as edges;
pub use kitchen::drafts as kitchen_drafts;
pub use shapes::{shapes, Shape};

use oracle::answer::CAPACITY;
use oracle::sheets::Draft;

pub struct Input {
    pub name: String,
    pub sheets: Vec<Vec<u8>>,
    /// The sheets before they are written; of those that are measured over tables alone.
    pub drafts: Vec<Draft>,
    /// The entries that the plan buffer has space for at least.
    pub space: usize,
}

impl Input {
    /// Of sheets that are measured as such alone.
    pub fn of_sheets(name: impl Into<String>, sheets: Vec<Vec<u8>>) -> Self {
        Self { name: name.into(), sheets, drafts: Vec::new(), space: 0 }
    }

    pub fn of_drafts(name: impl Into<String>, drafts: Vec<Draft>) -> Self {
        let sheets = drafts.iter().map(Draft::bytes).collect();
        Self { name: name.into(), sheets, drafts, space: 0 }
    }
}

pub fn inputs() -> Vec<Input> {
    let mut inputs = vec![Input::of_drafts("kitchen of 300 parts", kitchen::drafts())];
    inputs.extend(shapes().into_iter().map(|shape| shape.at_limit()));
    inputs.extend(refused::inputs());
    inputs
}

/// Those that are measured over tables; the kitchen with a plan buffer of the largest size too.
pub fn over_tables() -> Vec<Input> {
    let mut inputs: Vec<Input> =
        inputs().into_iter().filter(|input| !input.drafts.is_empty()).collect();
    let name = format!("{}, space for 1,536 entries", inputs[0].name);
    let space = CAPACITY;
    inputs.insert(1, Input { space, ..Input::of_drafts(name, kitchen::drafts()) });
    inputs
}
