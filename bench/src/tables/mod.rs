//! What the calls over tables cost, on the kitchen and at growing sizes.

pub mod bodies;
mod builder;
pub mod examples;
pub mod lent;
pub mod runs;

const SAMPLES: usize = 41;

/// Sizes of the shapes: a quarter, a half and the whole of the most nodes.
const SIZES: [usize; 3] = [128, 256, 512];

/// No call may take longer, in seconds.
const MOST: f64 = 10e-3;

/// Of so many calls that take these times together.
fn within_bar(name: &str, times: &[Option<f64>], calls: usize) -> Result<(), String> {
    let longest = times.iter().flatten().fold(0.0, |longest: f64, time| longest.max(*time));
    if longest > MOST * calls as f64 {
        return Err(format!("{name}: {calls} calls take {:.1} ms", longest * 1e3));
    }
    Ok(())
}
