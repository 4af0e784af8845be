//! Contended share-outs of 32 claims.

use crate::share_outs::{self, ShareOut, SHARE_OUTS};
use crate::table::{Table, FASTER};
use crate::timing::time;
use crate::zankurbe;
use independent::answer::Answer;
use independent::share_out::{share_out, MAX_HOLDERS};
use std::hint::black_box;

/// The share-outs of a batch.
const IN_BATCH: usize = 64;

pub fn measure(table: &mut Table) {
    for range in [2..=2, 7..=9, 27..=33] {
        let inputs = share_outs::of_passes(&range);
        let passes: u64 = inputs.iter().map(|input| input.passes).sum();
        compare(&inputs);
        let what = format!(
            "share-out of 32 claims, {:.1} passes",
            passes as f64 / SHARE_OUTS as f64
        );
        let part = |input: usize| &inputs[IN_BATCH * input..][..IN_BATCH];
        table.row(
            &what,
            Some(FASTER),
            SHARE_OUTS / IN_BATCH,
            |input| batch(part(input), zankurbe::share_out),
            |input| batch(part(input), share_out),
        );
    }
}

/// The nanoseconds of a share-out in a batch, with one output.
fn batch(inputs: &[ShareOut], shared: impl Fn(u64, &[u64], &[u64], &mut [u64]) -> Answer) -> f64 {
    let mut output = [0; MAX_HOLDERS];
    time(inputs.len(), || {
        for input in inputs {
            let input = black_box(input);
            black_box(shared(
                input.pool,
                &input.claims,
                &input.weights,
                black_box(&mut output),
            ));
        }
    })
}

/// Compares what is timed once.
fn compare(inputs: &[ShareOut]) {
    for input in inputs {
        let (mut ours, mut theirs) = ([0; MAX_HOLDERS], [0; MAX_HOLDERS]);
        let our_answer = zankurbe::share_out(input.pool, &input.claims, &input.weights, &mut ours);
        let their_answer = share_out(input.pool, &input.claims, &input.weights, &mut theirs);
        assert_eq!(our_answer, their_answer);
        assert_eq!(ours, theirs);
    }
}
