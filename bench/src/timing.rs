//! How a measurement is made: batches of both sides in turn, the best and the median batch of each.

use std::hint::black_box;
use std::time::{Duration, Instant};

/// The fewest batches of each side and input.
const LEAST_BATCHES: usize = 16;

/// How many places on the stack the batches rotate over.
const DEPTHS: usize = 16;

/// The nanoseconds of a call, in the best batch and in the median batch.
#[derive(Clone, Copy)]
pub struct Nanoseconds {
    pub best: f64,
    pub median: f64,
}

/// The nanoseconds of each call in a batch of `calls`.
pub fn time<T>(calls: usize, batch: impl FnOnce() -> T) -> f64 {
    let start = Instant::now();
    black_box(batch());
    start.elapsed().as_nanos() as f64 / calls as f64
}

/// Times two sides in turn until the time is spent; the side that goes first changes every round, and so
/// does, every other round, the place on the stack. A side
/// gets the number of an input, prepares it outside the timed part, and answers the nanoseconds of a call.
/// The best and the median of each input are averaged over the inputs.
pub fn measure(
    spend: Duration,
    inputs: usize,
    mut first: impl FnMut(usize) -> f64,
    mut second: impl FnMut(usize) -> f64,
) -> [Nanoseconds; 2] {
    let mut firsts = vec![Vec::new(); inputs];
    let mut seconds = vec![Vec::new(); inputs];
    let start = Instant::now();
    let mut round = 0;
    while round < LEAST_BATCHES || start.elapsed() < spend {
        let depth = round / 2 % DEPTHS;
        for input in 0..inputs {
            if round % 2 == 0 {
                firsts[input].push(deeper(depth, &mut || first(input)));
                seconds[input].push(deeper(depth, &mut || second(input)));
            } else {
                seconds[input].push(deeper(depth, &mut || second(input)));
                firsts[input].push(deeper(depth, &mut || first(input)));
            }
        }
        round += 1;
    }
    [summary(firsts), summary(seconds)]
}

/// Runs a batch some steps deeper in the stack: where a side's own buffers lie against the lent ones
/// changes its time, and neither side is to be lucky with it.
#[inline(never)]
fn deeper(steps: usize, batch: &mut dyn FnMut() -> f64) -> f64 {
    let taken = black_box([0u64; 35]);
    let time = if steps == 0 {
        batch()
    } else {
        deeper(steps - 1, batch)
    };
    black_box(&taken);
    time
}

fn summary(batches: Vec<Vec<f64>>) -> Nanoseconds {
    let inputs = batches.len() as f64;
    let mut sum = Nanoseconds {
        best: 0.0,
        median: 0.0,
    };
    for mut of_input in batches {
        of_input.sort_by(f64::total_cmp);
        sum.best += of_input[0] / inputs;
        sum.median += of_input[of_input.len() / 2] / inputs;
    }
    sum
}
