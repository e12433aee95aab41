//! What each call of the plan store costs, and how that grows with the entries that it moves or
//! writes.

use crate::clock::{median, seconds};
use crate::report::{self, thousands};
use oracle::plan_store::entry::{Calls, LINKED, STORE_WORDS};
use oracle::plan_store::model::{CAPACITY, MOST_PACKS};
use std::hint::black_box;

const SAMPLES: usize = 301;
/// Calls of one sample.
const CALLS: usize = 64;
const SIZES: [usize; 6] = [1, 96, 192, 384, 768, CAPACITY - CALLS];

/// A call on a store, the store that it is made on, and how many entries it moves or writes.
struct Job {
    name: &'static str,
    entries: usize,
    store: Vec<u32>,
    call: fn(&Calls, &mut [u32], &[u32], usize),
}

pub fn times() -> Result<Vec<String>, String> {
    let calls = LINKED.ok_or("STORE_LIBRARY names the library at the build")?;
    let plan = vec![1; CAPACITY * 5];
    let head = "| Call | words moved or written | ns | ns a word |";
    let lines = jobs(&calls, &plan).into_iter();
    report::table(head, lines.map(|job| Ok(line(&job, nanoseconds(&job, &calls, &plan)?))))
}

fn line(job: &Job, time: f64) -> String {
    let Job { name, entries, .. } = job;
    let entry = if *entries == 1 { "entry" } else { "entries" };
    let name = name.replace('#', &format!("{} {entry}", thousands(*entries as u64)));
    let words = entries * 5;
    match words {
        0 => format!("| {name} | – | {time:.0} | – |"),
        _ => {
            let each = time / words as f64;
            format!("| {name} | {} | {time:.0} | {each:.2} |", thousands(words as u64))
        }
    }
}

/// A store of eight packs without shares, of which the last keeps so many entries.
fn store(calls: &Calls, plan: &[u32], entries: usize) -> Vec<u32> {
    let mut store = vec![0; STORE_WORDS];
    (calls.set_up)(&mut store, &[0; MOST_PACKS]);
    (calls.keep)(&mut store, MOST_PACKS as u32, plan, entries as u32, &mut []);
    store
}

fn jobs(calls: &Calls, plan: &[u32]) -> Vec<Job> {
    let full = store(calls, plan, CAPACITY);
    let few = |name, call| Job { name, entries: 0, store: full.clone(), call };
    let mut jobs = vec![
        few("set-up of eight packs", |calls, store, _, _| {
            black_box((calls.set_up)(store, &[0; MOST_PACKS]));
        }),
        few("reading the last of 1,536 entries", |calls, store, _, _| {
            let last = CAPACITY as u32 - 1;
            black_box((calls.read)(store, MOST_PACKS as u32, last, &mut [0; 5]));
        }),
        few("emptying a full store", |calls, store, _, _| {
            black_box((calls.empty)(store));
        }),
        few("a plan that is refused", |calls, store, plan, _| {
            black_box((calls.keep)(store, 1, plan, 1, &mut [0; 4]));
        }),
    ];
    for entries in SIZES {
        let name = "keeping a plan of #";
        let call = |calls: &Calls, store: &mut [u32], plan: &[u32], entries: usize| {
            black_box((calls.keep)(store, MOST_PACKS as u32, plan, entries as u32, &mut [0; 4]));
            // The pack keeps none again.
            store[MOST_PACKS * 2] = 0;
        };
        jobs.push(Job { name, entries, store: store(calls, plan, 0), call });
    }
    for entries in SIZES {
        let name = "keeping an entry before # of later packs";
        let call = |calls: &Calls, store: &mut [u32], plan: &[u32], _| {
            black_box((calls.keep)(store, 1, plan, 1, &mut [0; 4]));
        };
        jobs.push(Job { name, entries, store: store(calls, plan, entries), call });
    }
    jobs
}

/// The median time of a call, of as many in a row on a store that is made anew for each sample.
fn nanoseconds(job: &Job, calls: &Calls, plan: &[u32]) -> Result<f64, String> {
    let mut store = job.store.clone();
    let mut times = Vec::new();
    for _ in 0..SAMPLES {
        store.copy_from_slice(&job.store);
        let start = seconds();
        for _ in 0..CALLS {
            (job.call)(calls, black_box(&mut store), plan, job.entries);
        }
        times.push((seconds() - start) * 1e9 / CALLS as f64);
    }
    median(times).ok_or_else(|| "no samples".into())
}
