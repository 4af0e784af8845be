//! Share-outs: the compiled library against the independent program, answers and all memory.

use crate::faults::Change::{Behind, Granted, KwMore, NextRefusal, PassNotCounted, Refused};
use crate::lent::Lent;
use crate::library::Ours;
use crate::numbers::Numbers;
use crate::suites::Suite;
use crate::tally::Tally;
use independent::share_out::{share_out, MAX_CLAIM_KW, MAX_POOL_KW, MAX_WEIGHT};

pub const SUITE: Suite = Suite {
    name: "share-outs",
    seed: 1,
    cases: 250_000,
    floors: &[],
    faults: &[
        ("share_out", KwMore),
        ("share_out", PassNotCounted),
        ("share_out", NextRefusal),
        ("share_out", Granted("output")),
        ("share_out", Refused("output")),
        ("share_out", Behind("output")),
        ("share_out", Granted("claims")),
        ("share_out", Granted("weights")),
    ],
    compare,
};

struct Case {
    pool: u64,
    claims: Vec<u64>,
    weights: Vec<u64>,
    output: Vec<u64>,
}

/// A share-out: small and large numbers, at the limits, and damaged ones.
fn any(r: &mut Numbers) -> Case {
    let holders = match r.below(8) {
        0 => r.below(4),
        1 => 32,
        _ => r.below(33),
    } as usize;
    let most_kw = r.one_of(&[1, 3, 10, 100, 5_000, 1_000_000, MAX_POOL_KW, MAX_CLAIM_KW]);
    let most_weight = r.one_of(&[1, 2, 5, 1_000, 100_000, MAX_WEIGHT]);
    let equal = r.once_in(5);
    let zero_weights = r.one_of(&[0, 2, 4, 20]);
    let first = r.below(most_weight + 1);
    let claims: Vec<u64> = (0..holders)
        .map(|_| {
            if r.once_in(6) {
                0
            } else {
                r.below(most_kw + 1)
            }
        })
        .collect();
    let weights: Vec<u64> = (0..holders)
        .map(|_| {
            if zero_weights > 0 && r.once_in(zero_weights) {
                0
            } else if equal {
                first
            } else {
                r.below(most_weight + 1)
            }
        })
        .collect();
    let claimed: u64 = claims.iter().sum();
    let pool = match r.below(10) {
        0 => 0,
        1 => MAX_POOL_KW,
        2 => claimed.min(MAX_POOL_KW),
        3 => claimed.saturating_sub(1).min(MAX_POOL_KW),
        4 => r.below(5),
        _ => r.below(claimed.min(MAX_POOL_KW) + 1),
    };
    let room = holders + if r.once_in(3) { 0 } else { r.below(6) as usize };
    let output = (0..room).map(|_| r.next()).collect();
    let mut case = Case {
        pool,
        claims,
        weights,
        output,
    };
    if r.once_in(6) {
        damage(&mut case, r);
    }
    case
}

/// One thing, or two, that refusals 5 and 9 are about, by one beyond the limit or far.
fn damage(case: &mut Case, r: &mut Numbers) {
    for _ in 0..1 + r.below(2) {
        let beyond = |most: u64, r: &mut Numbers| {
            if r.once_in(2) {
                most + 1
            } else {
                most.saturating_add(r.next() >> r.below(30))
            }
        };
        match r.below(8) {
            0 => case.pool = beyond(MAX_POOL_KW, r),
            1 if !case.claims.is_empty() => {
                let at = r.below(case.claims.len() as u64) as usize;
                case.claims[at] = beyond(MAX_CLAIM_KW, r);
            }
            2 if !case.weights.is_empty() => {
                let at = r.below(case.weights.len() as u64) as usize;
                case.weights[at] = beyond(MAX_WEIGHT, r);
            }
            3 => case.claims.push(r.below(100)),
            4 => {
                case.weights.pop();
            }
            5 => {
                case.output.pop();
            }
            6 => {
                let long = 33 + r.below(40) as usize;
                case.claims.resize(long, 1);
                case.weights.resize(long, 1);
                if r.once_in(2) {
                    case.output.resize(long, 7);
                }
            }
            _ => {
                let n = case.claims.len().min(case.output.len());
                case.output.truncate(n.saturating_sub(1));
            }
        }
    }
}

/// Compares a share-out, or says how the two differ.
fn compare(ours: &Ours, _: u64, r: &mut Numbers, _: &mut Tally) -> Result<(), String> {
    let Case {
        pool,
        claims,
        weights,
        output,
    } = any(r);
    let amid_noise =
        |words: &[u64], r: &mut Numbers| Lent::amid_noise(words, Numbers::wide_words, r);
    let (mut our_claims, mut our_weights) = (amid_noise(&claims, r), amid_noise(&weights, r));
    let (claims_before, weights_before) = (our_claims.clone(), our_weights.clone());
    let mut our_output = amid_noise(&output, r);
    let mut expected = our_output.clone();
    let answer = ours.share_out(pool, &mut our_claims, &mut our_weights, &mut our_output);
    let theirs = share_out(pool, &claims, &weights, expected.lent_mut());
    let untouched = our_claims.stays(&claims_before) && our_weights.stays(&weights_before);
    if answer == theirs && our_output == expected && untouched {
        return Ok(());
    }
    Err(format!(
        "pool {pool}, claims {claims:?}, weights {weights:?}, output {output:?}\n  library {answer:?} {:?}\n  independent {theirs:?} {:?}\n  inputs untouched: {untouched}",
        our_output.all(),
        expected.all()
    ))
}
