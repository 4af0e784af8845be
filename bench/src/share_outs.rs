//! Contended share-outs of 32 claims that take about so many passes.

use crate::numbers::Numbers;
use independent::share_out::{share_out, MAX_HOLDERS, MAX_POOL_KW, MAX_WEIGHT};
use std::ops::RangeInclusive;

/// How many share-outs of a sort there are: so many that their branches aren't learned.
pub const SHARE_OUTS: usize = 1_024;

#[derive(Clone)]
pub struct ShareOut {
    pub pool: u64,
    pub claims: [u64; MAX_HOLDERS],
    pub weights: [u64; MAX_HOLDERS],
    pub passes: u64,
}

/// Share-outs whose passes are in the range.
pub fn of_passes(range: &RangeInclusive<u64>) -> Vec<ShareOut> {
    let mut r = Numbers::new(21, *range.start());
    let mut found = Vec::new();
    while found.len() < SHARE_OUTS {
        let candidate = if r.once_in(2) {
            any(&mut r)
        } else {
            chained(&mut r)
        };
        if range.contains(&candidate.passes) {
            found.push(candidate);
        }
    }
    found
}

/// Any claims and weights, and a pool of a part of the claims.
fn any(r: &mut Numbers) -> ShareOut {
    let list = (0..MAX_HOLDERS)
        .map(|_| (1 + r.below(600_000), 1 + r.below(MAX_WEIGHT)))
        .collect::<Vec<_>>();
    let claimed: u64 = list.iter().map(|it| it.0).sum();
    let pool = claimed * (20 + r.below(75)) / 100;
    shared(pool.min(MAX_POOL_KW), list)
}

/// Some heavy holders, each with about as much weight as all lighter ones together. The claim of each is
/// such that a pass closes just the heaviest one left and leaves about half of the pool.
fn chained(r: &mut Numbers) -> ShareOut {
    let heavy = r.index(23);
    let light = MAX_HOLDERS - heavy;
    let mut weights = vec![8; light];
    weights[0] = 16 + r.below(40);
    for _ in 0..heavy {
        let lighter: u64 = weights.iter().sum();
        weights.push((lighter * (97 + r.below(7)) / 100).min(MAX_WEIGHT));
    }
    let pool = MAX_POOL_KW - r.below(5_000_000);
    let (mut claims, mut left) = (vec![0; MAX_HOLDERS], pool);
    for heaviest in (light..MAX_HOLDERS).rev() {
        let all: u64 = weights[..=heaviest].iter().sum();
        let start = left;
        for holder in 0..=heaviest {
            let part = start * weights[holder] / all;
            let kw = if holder == heaviest {
                part.min(1 + r.below(2))
            } else {
                part
            };
            claims[holder] += kw;
            left -= kw;
        }
        claims[heaviest] = claims[heaviest].max(1);
    }
    for claim in &mut claims[..light] {
        *claim += 1_000 + r.below(2_000_000);
    }
    let mut list = claims.into_iter().zip(weights).collect::<Vec<_>>();
    r.shuffle(&mut list);
    shared(pool, list)
}

/// The share-out of claims and weights, with its passes.
fn shared(pool: u64, list: Vec<(u64, u64)>) -> ShareOut {
    let (mut claims, mut weights) = ([0; MAX_HOLDERS], [0; MAX_HOLDERS]);
    for (holder, (claim, weight)) in list.into_iter().enumerate() {
        claims[holder] = claim;
        weights[holder] = weight;
    }
    let passes = share_out(pool, &claims, &weights, &mut [0; MAX_HOLDERS]).passes;
    ShareOut {
        pool,
        claims,
        weights,
        passes,
    }
}
