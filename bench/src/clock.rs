//! Seconds of processor, so that what runs beside the bench isn't counted, and their medians.

use std::hint::black_box;

/// A sample repeats a job for about this long, so that the clock's own time doesn't count.
const SAMPLE: f64 = 200e-6;

#[repr(C)]
struct Timespec {
    seconds: i64,
    nanoseconds: i64,
}

extern "C" {
    fn clock_gettime(clock: i32, time: *mut Timespec) -> i32;
}

const PROCESS_CPUTIME: i32 = 2;

/// What the process has used so far.
pub fn seconds() -> f64 {
    let mut time = Timespec { seconds: 0, nanoseconds: 0 };
    // SAFETY: the time is lent to be written.
    unsafe { clock_gettime(PROCESS_CPUTIME, &mut time) };
    time.seconds as f64 + time.nanoseconds as f64 * 1e-9
}

/// Seconds of one run of each of so many jobs, sample by sample. The jobs take turns, each first in
/// every other sample.
pub fn by_turns(jobs: usize, samples: usize, mut run: impl FnMut(usize)) -> Vec<Vec<f64>> {
    let mut turns: Vec<(usize, u32)> = (0..jobs).map(|job| (job, enough(job, &mut run))).collect();
    let mut times = vec![Vec::new(); jobs];
    for _ in 0..samples {
        for &(job, repeats) in &turns {
            times[job].push(sample(job, repeats, &mut run));
        }
        turns.reverse();
    }
    times
}

/// Seconds of one run.
fn sample(job: usize, repeats: u32, run: &mut impl FnMut(usize)) -> f64 {
    let start = seconds();
    for _ in 0..repeats {
        run(black_box(job));
    }
    (seconds() - start) / f64::from(repeats)
}

/// How often a sample repeats a job.
fn enough(job: usize, run: &mut impl FnMut(usize)) -> u32 {
    let once = (0..5).map(|_| sample(job, 1, run)).fold(f64::INFINITY, f64::min);
    (SAMPLE / once).ceil().clamp(1.0, 10_000.0) as u32
}

pub fn median(mut times: Vec<f64>) -> Option<f64> {
    times.sort_by(f64::total_cmp);
    times.get(times.len() / 2).copied()
}

/// One job's time over another's: the median over the samples that were taken side by side, so that
/// what slows the machine for a while slows both.
pub fn ratio(times: &[f64], others: &[f64]) -> Option<f64> {
    median(times.iter().zip(others).map(|(time, other)| time / other).collect())
}
