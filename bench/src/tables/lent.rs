//! Tables as a host lends them, made before anything is timed, and the calls on them.

use oracle::answer::{CAPACITY, ENTRY_WORDS};
use oracle::c_calls::{
    teluddru_add_name, teluddru_first_miss, teluddru_names_report, teluddru_plan, teluddru_run,
    teluddru_run_with_tolerance, teluddru_table_fault,
};
use oracle::parties::words::{Words, NAME_WORDS};
use oracle::sheets::Draft;

pub const PLANNED: u32 = 0;
pub const ROOT_OUTSIDE: u32 = 5;
pub const MOST_NAMES: usize = 128;

/// The plan of a pattern has at most so many entries, and so has the plan buffer of most hosts.
const ENTRIES: usize = 512;

/// What calls write. One for all tables, as a host has it.
pub struct Space {
    pub plan: Vec<u32>,
    pub answer: [u32; 5],
    values: [u32; MOST_NAMES],
    list: [u32; MOST_NAMES],
}

impl Space {
    /// With space for plans of so many entries.
    pub fn for_plans(entries: Option<usize>) -> Self {
        let most = if entries.unwrap_or(0) > ENTRIES { CAPACITY } else { ENTRIES };
        let (values, list) = ([0; MOST_NAMES], [0; MOST_NAMES]);
        Self { plan: vec![0; most * ENTRY_WORDS], answer: [0; 5], values, list }
    }

    /// The words of the plan, without the zeros behind it: no kind of an entry is 0.
    pub fn entries(&self) -> &[u32] {
        let entries = self.plan.chunks(ENTRY_WORDS).take_while(|entry| entry[0] != 0).count();
        &self.plan[..entries * ENTRY_WORDS]
    }
}

/// Tables, and what is asked of them.
pub struct Lent {
    pub words: Words,
    pub marks: Vec<u8>,
    pub operation: u32,
    pub scheduler: u32,
    pub scoping: u32,
    /// Of a run the pattern and the value.
    pub roots: [u32; 3],
    /// Value nodes by name number.
    pub values: Vec<u32>,
    lowest: Vec<u64>,
    highest: Vec<u64>,
}

impl Lent {
    /// Each node has the range 1 to 3, for numbers that are measured.
    pub fn of(draft: &Draft) -> Self {
        let words = Words::of(draft, &[]);
        Self {
            marks: draft.names.iter().map(|name| name[2] as u8).collect(),
            operation: draft.operation,
            scheduler: draft.scheduler,
            scoping: draft.scoping,
            roots: draft.roots,
            values: vec![0; draft.names.len()],
            lowest: [0, 1].repeat(draft.nodes.len()),
            highest: [0, 3].repeat(draft.nodes.len()),
            words,
        }
    }

    pub fn plan(&mut self, space: &mut Space) -> u32 {
        self.planned(self.roots[0], space)
    }

    /// A root outside the nodes is refused after the table check.
    pub fn check(&mut self, space: &mut Space) -> u32 {
        self.planned(0, space)
    }

    fn planned(&mut self, first: u32, space: &mut Space) -> u32 {
        let Self { operation, scheduler, scoping, roots: [_, second, key], .. } = *self;
        let (tables, marks) = (&mut self.words, &mut self.marks);
        let Space { plan, answer, .. } = space;
        teluddru_plan(
            tables, marks, operation, scheduler, scoping, first, second, key, 0, plan, answer,
        )
    }

    pub fn run(&mut self, space: &mut Space) -> u32 {
        let Self { scheduler, scoping, roots: [pattern, value, _], .. } = *self;
        let (tables, marks) = (&mut self.words, &mut self.marks);
        let Space { plan, answer, values, .. } = space;
        let values = listed(values, &self.values);
        teluddru_run(tables, marks, scheduler, scoping, pattern, value, values, plan, answer)
    }

    pub fn first_miss(&mut self, space: &mut Space) -> u32 {
        let Self { scheduler, scoping, roots: [pattern, value, _], .. } = *self;
        let (tables, marks) = (&mut self.words, &mut self.marks);
        let (values, answer) = (&mut self.values, &mut space.answer);
        teluddru_first_miss(tables, marks, scheduler, scoping, pattern, value, values, answer)
    }

    #[rustfmt::skip]
    pub fn run_with_tolerance(&mut self, space: &mut Space) -> u32 {
        let Self { scheduler, scoping, roots: [pattern, value, _], .. } = *self;
        let Space { plan, answer, values, .. } = space;
        teluddru_run_with_tolerance(
            &mut self.words, &mut self.marks, scheduler, scoping, pattern, value,
            listed(values, &self.values), &mut self.lowest, &mut self.highest, plan, answer,
        )
    }

    pub fn names_report(&mut self, space: &mut Space) -> u32 {
        let Self { scheduler, scoping, roots: [pattern, ..], .. } = *self;
        let (tables, marks) = (&mut self.words, &mut self.marks);
        let (list, answer) = (&mut space.list, &mut space.answer);
        teluddru_names_report(tables, marks, scheduler, scoping, pattern, list, answer)
    }

    /// The last name is asked for again, so nothing changes.
    pub fn add_name(&mut self, space: &mut Space) -> u32 {
        let used = self.words.names.len() / NAME_WORDS;
        let last = self.words.names.chunks(NAME_WORDS).last().unwrap_or(&[0, 1]);
        let (start, length) = (last[0], last[1]);
        teluddru_add_name(&mut self.words, used as u32, start, length, &mut space.answer)
    }

    pub fn table_fault(&mut self, space: &mut Space) -> u32 {
        teluddru_table_fault(&mut self.words, &mut self.marks, &mut space.answer)
    }
}

/// A run sets values, so each begins with a copy.
fn listed<'a>(space: &'a mut [u32], values: &[u32]) -> &'a mut [u32] {
    space[..values.len()].copy_from_slice(values);
    &mut space[..values.len()]
}
