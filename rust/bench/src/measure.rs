//! Times, measured side by side: the contenders take turns in short batches over many rounds, so
//! that whatever else the machine does falls on all of them, and the shortest time of each counts.

use std::time::{Duration, Instant};

/// Runs so many calls.
pub type Contender<'a> = Box<dyn FnMut(usize) + 'a>;

/// A batch takes about this long, or is one call.
const BATCH: Duration = Duration::from_millis(1);
const FEWEST_ROUNDS: usize = 8;

fn time_of(contender: &mut Contender, calls: usize) -> Duration {
    let start = Instant::now();
    contender(calls);
    start.elapsed()
}

/// How many calls make a batch, found by doubling; this warms up, too.
fn batch_of(contender: &mut Contender) -> usize {
    let mut calls = 1;
    while time_of(contender, calls) < BATCH {
        calls *= 2;
    }
    calls.div_ceil(2)
}

/// The time of one call of each contender in nanoseconds, after about `whole` of measuring.
pub fn measure(mut contenders: Vec<Contender>, whole: Duration) -> Vec<f64> {
    let start = Instant::now();
    let batches: Vec<usize> = contenders.iter_mut().map(batch_of).collect();
    let mut best = vec![f64::INFINITY; contenders.len()];
    let mut rounds = 0;
    while rounds < FEWEST_ROUNDS || start.elapsed() < whole {
        for (i, contender) in contenders.iter_mut().enumerate() {
            let time = time_of(contender, batches[i]).as_nanos() as f64 / batches[i] as f64;
            best[i] = best[i].min(time);
        }
        rounds += 1;
    }
    best
}
