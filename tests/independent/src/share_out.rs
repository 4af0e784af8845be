//! The share-out: a pool of kW over up to 32 holders, each with a claim and a
//! weight.

use crate::answer::Answer;

/// The most holders of a share-out; none at all is fine.
pub const MAX_HOLDERS: usize = 32;
/// The largest pool; a larger one gives refusal 9.
pub const MAX_POOL_KW: u64 = 20_000_000;
/// The largest claim, likewise: 1,024 records of 20,000,000 kW.
pub const MAX_CLAIM_KW: u64 = 20_480_000_000;
/// The largest weight, likewise.
pub const MAX_WEIGHT: u64 = 100_000_000;

/// Shares `pool` out over the holders. The grants go into the first n places
/// of `output`; later places stay, and a refusal writes nothing.
pub fn share_out(pool: u64, claims: &[u64], weights: &[u64], output: &mut [u64]) -> Answer {
    let n = claims.len();
    // Refusal 5 is about the lists: their lengths, and the room for grants.
    if weights.len() != n || n > MAX_HOLDERS || output.len() < n {
        return Answer::refused(5);
    }
    // Refusal 9 is about the numbers in them.
    if pool > MAX_POOL_KW
        || claims.iter().any(|&claim| claim > MAX_CLAIM_KW)
        || weights.iter().any(|&weight| weight > MAX_WEIGHT)
    {
        return Answer::refused(9);
    }

    let grants = &mut output[..n];
    // Where there is enough for all, all get what they claim, without a pass.
    // The sum is at most 32 x 20,480,000,000, far below 64 bits.
    let claimed: u64 = claims.iter().sum();
    if claimed <= pool {
        grants.copy_from_slice(claims);
        return Answer::granted(claimed, 0);
    }
    grants.fill(0);
    // The claims pass the pool, so all of it is granted in the end.
    Answer::granted(pool, passes(pool, claims, weights, grants))
}

/// Makes passes while anything is left in the pool, for claims that together
/// pass it and grants that start at 0; answers how many there were.
fn passes(mut pool: u64, claims: &[u64], weights: &[u64], grants: &mut [u64]) -> u64 {
    // The open holders, in rising order, and what they weigh together. Who has
    // no weight, or nothing left to claim, isn't open.
    let mut places = [0usize; MAX_HOLDERS];
    let mut open = 0;
    let mut open_weight = 0;
    for (holder, (&claim, &weight)) in claims.iter().zip(weights).enumerate() {
        if claim > 0 && weight > 0 {
            places[open] = holder;
            open += 1;
            open_weight += weight;
        }
    }

    let mut passes = 0;
    while pool > 0 {
        // Whatever a pass does, it is one pass.
        passes += 1;

        // Nobody is open: those without weight are served, one after the
        // other. All other claims are met, and the claims pass the pool, so
        // this empties it.
        if open == 0 {
            for ((grant, &claim), &weight) in grants.iter_mut().zip(claims).zip(weights) {
                if weight == 0 {
                    *grant = claim.min(pool);
                    pool -= *grant;
                }
            }
            break;
        }

        // An open holder's portion goes by its weight in what the pass began
        // with, whole kW only, and ends at its claim. The product is at most
        // 2·10^15.
        let start = pool;
        let all_weights = open_weight;
        let mut still_open = 0;
        for place in 0..open {
            let holder = places[place];
            let weight = weights[holder];
            let unmet = claims[holder] - grants[holder];
            let portion = start * weight / all_weights;
            if portion < unmet {
                grants[holder] += portion;
                pool -= portion;
                places[still_open] = holder;
                still_open += 1;
            } else {
                grants[holder] += unmet;
                pool -= unmet;
                open_weight -= weight;
            }
        }
        open = still_open;

        // Nobody got a whole kW: the pass hands out single ones, from the
        // lowest open holder on. Every portion below 1 means fewer kW than open
        // holders: nobody was closed above, and the pool is empty after this.
        if pool == start {
            for &holder in &places[..open] {
                if pool == 0 {
                    break;
                }
                grants[holder] += 1;
                pool -= 1;
            }
        }
    }
    passes
}

#[cfg(test)]
mod tests {
    use super::*;

    fn granted(pool: u64, claims: &[u64], weights: &[u64], grants: &[u64], passes: u64) {
        let mut output = [77; MAX_HOLDERS + 1];
        let answer = share_out(pool, claims, weights, &mut output);
        assert_eq!(answer, Answer::granted(grants.iter().sum(), passes));
        assert_eq!(&output[..grants.len()], grants);
        assert!(output[grants.len()..].iter().all(|&kw| kw == 77));
    }

    fn refused(number: u32, pool: u64, claims: &[u64], weights: &[u64], places: usize) {
        let mut output = vec![77; places];
        assert_eq!(
            share_out(pool, claims, weights, &mut output),
            Answer::refused(number)
        );
        assert!(output.iter().all(|&kw| kw == 77));
    }

    #[test]
    fn case_a() {
        granted(100, &[20, 90, 50], &[1, 1, 2], &[20, 30, 50], 2);
    }

    #[test]
    fn case_b() {
        granted(2, &[5, 5, 5], &[1, 1, 1], &[1, 1, 0], 1);
    }

    #[test]
    fn case_c() {
        granted(7, &[9, 9, 9], &[3, 1, 1], &[5, 1, 1], 2);
    }

    #[test]
    fn case_d() {
        granted(10, &[4, 9], &[1, 0], &[4, 6], 2);
    }

    #[test]
    fn case_e() {
        granted(160, &[20, 90, 50], &[1, 1, 2], &[20, 90, 50], 0);
    }

    #[test]
    fn case_f() {
        granted(0, &[5], &[1], &[0], 0);
    }

    #[test]
    fn no_holders() {
        granted(0, &[], &[], &[], 0);
        granted(20_000_000, &[], &[], &[], 0);
    }

    #[test]
    fn largest_numbers() {
        let claims = [MAX_CLAIM_KW; 32];
        granted(MAX_POOL_KW, &claims, &[MAX_WEIGHT; 32], &[625_000; 32], 1);
        let mut first = [0; 32];
        first[0] = MAX_POOL_KW;
        granted(MAX_POOL_KW, &claims, &[0; 32], &first, 1);
    }

    #[test]
    fn odd_kw_go_to_the_lowest_open_holders() {
        // Holder 0 claims nothing and holder 1 weighs nothing: neither is open.
        granted(1, &[0, 5, 5, 5], &[9, 0, 1, 1], &[0, 0, 1, 0], 1);
    }

    #[test]
    fn sizes_are_refused_before_values() {
        let many = [1; 33];
        refused(5, 1, &many, &many, 33);
        refused(5, 1, &[1, 1], &[1], 2);
        refused(5, u64::MAX, &[u64::MAX], &[u64::MAX], 0);
        refused(5, u64::MAX, &[1], &[1, 1], 2);
    }

    #[test]
    fn values_out_of_range_are_refused() {
        refused(9, MAX_POOL_KW + 1, &[], &[], 0);
        refused(9, 1, &[MAX_CLAIM_KW + 1], &[1], 1);
        refused(9, 1, &[1], &[MAX_WEIGHT + 1], 1);
        refused(9, u64::MAX, &[u64::MAX; 32], &[u64::MAX; 32], 40);
    }

    /// The passes done plainly, with everything counted anew in each pass.
    fn by_the_words(mut pool: u64, claims: &[u64], weights: &[u64]) -> (Vec<u64>, u64) {
        let mut grants = vec![0; claims.len()];
        if claims.iter().sum::<u64>() <= pool {
            return (claims.to_vec(), 0);
        }
        let mut passes = 0;
        while pool > 0 {
            passes += 1;
            let open: Vec<usize> = (0..claims.len())
                .filter(|&h| grants[h] < claims[h] && weights[h] > 0)
                .collect();
            let all_weights: u64 = open.iter().map(|&h| weights[h]).sum();
            let portions: Vec<u64> = open
                .iter()
                .map(|&h| (claims[h] - grants[h]).min(pool * weights[h] / all_weights))
                .collect();
            if open.is_empty() {
                for h in (0..claims.len()).filter(|&h| weights[h] == 0) {
                    grants[h] = claims[h].min(pool);
                    pool -= grants[h];
                }
            } else if portions.iter().all(|&kw| kw == 0) {
                for h in open {
                    let kw = pool.min(1);
                    grants[h] += kw;
                    pool -= kw;
                }
            } else {
                for (h, kw) in open.into_iter().zip(portions) {
                    grants[h] += kw;
                    pool -= kw;
                }
            }
        }
        (grants, passes)
    }

    #[test]
    fn passes_agree_with_the_words() {
        let mut seed = 2_026u64;
        let mut below = |n: u64| {
            seed = seed
                .wrapping_mul(6_364_136_223_846_793_005)
                .wrapping_add(1_442_695_040_888_963_407);
            (seed >> 33) % n
        };
        for round in 0..3_000 {
            let n = below(33) as usize;
            let (most_kw, most_weight) = match round % 3 {
                0 => (20, 4),
                1 => (2_000, 100_000),
                _ => (1_000_000, MAX_WEIGHT + 1),
            };
            let claims: Vec<u64> = (0..n).map(|_| below(most_kw)).collect();
            let weights: Vec<u64> = (0..n).map(|_| below(2) * below(most_weight)).collect();
            let pool = below(most_kw * 12).min(MAX_POOL_KW);
            let (grants, passes) = by_the_words(pool, &claims, &weights);
            granted(pool, &claims, &weights, &grants, passes);
            assert!(passes <= n as u64 + 1);
        }
    }
}
