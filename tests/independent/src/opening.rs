//! Opening: Steps 1 to 7, from a sheet to the state of stage 1.

use crate::answer::Answer;
use crate::share_out::{share_out, MAX_HOLDERS};
use crate::sheet::{
    Sheet, EXISTING_CONTRACT, LIMIT, LOAD_SHARE, MAX_INTERTIES, NEW_USE_COMMITMENT, OUTSIDE_RIGHT,
    PRE_RA_COMMITMENT,
};
use crate::year::{PerPair, Year, STATE_WORDS, TRADING};

/// kW for each holder on each intertie, in 64 bits.
type KwPerPair = [[u64; MAX_HOLDERS]; MAX_INTERTIES];

/// A New Use commitment (kind 6).
struct NewUse {
    holder: usize,
    rank: u32,
    intertie: usize,
    kw: u64,
}

/// A holder's part of T by its load share, in whole kW; nothing where nobody has
/// a load share.
pub(crate) fn load_share_quantity(total_kw: u64, load_share: u64, all_load_shares: u64) -> u64 {
    (total_kw * load_share)
        .checked_div(all_load_shares)
        .unwrap_or(0)
}

impl Year {
    /// Opens the year from a sheet into a lent state of `words` words; answers
    /// T. Refusals 1 to 5.
    pub fn open(&mut self, sheet: &[u8], words: usize) -> Answer {
        match Sheet::read(sheet) {
            Err(number) => Answer::refused(number),
            Ok(_) if words < STATE_WORDS => Answer::refused(5),
            Ok(sheet) => Answer::granted(self.fill(&sheet), 0),
        }
    }

    /// Writes every named word from a sheet that stands; answers T.
    pub(crate) fn fill(&mut self, sheet: &Sheet) -> u64 {
        let Sheet {
            interties, holders, ..
        } = *sheet;
        self.clear(interties, holders);

        // What the records say, kW of a pair together.
        let mut pre_ra: KwPerPair = [[0; MAX_HOLDERS]; MAX_INTERTIES];
        let mut new_use = Vec::new();
        for record in sheet.records() {
            let holder = record.key.holder as usize;
            let intertie = record.key.intertie as usize;
            let quantity = record.quantity;
            match record.key.kind {
                LIMIT => self.limit[intertie] = quantity,
                // Outside and E together are at most the limit (refusal 4).
                OUTSIDE_RIGHT => self.outside[intertie] += quantity,
                LOAD_SHARE => self.load_share[holder] = quantity,
                // Step 3: contracts of a pair add up to its E.
                EXISTING_CONTRACT => self.existing[intertie][holder] += quantity,
                PRE_RA_COMMITMENT => pre_ra[intertie][holder] += u64::from(quantity),
                NEW_USE_COMMITMENT => new_use.push(NewUse {
                    holder,
                    rank: record.key.rank,
                    intertie,
                    kw: u64::from(quantity),
                }),
                _ => {}
            }
        }
        // For Step 4b: each holder's from the lowest rank on.
        new_use.sort_unstable_by_key(|record| (record.holder, record.rank));

        // Step 2: what outside rights leave of the limits makes T. Each step
        // then takes from unassigned.
        let mut total_kw = 0;
        for intertie in 0..interties {
            let available = self.limit[intertie] - self.outside[intertie];
            total_kw += u64::from(available);
            self.unassigned[intertie] =
                available - self.existing[intertie][..holders].iter().sum::<u32>();
        }

        let mut weights = [0; MAX_HOLDERS];
        for (weight, &load_share) in weights.iter_mut().zip(&self.load_share[..holders]) {
            *weight = u64::from(load_share);
        }
        let weights = &weights[..holders];

        self.step_4a(&pre_ra, weights, interties);
        self.step_4b(&pre_ra, &new_use, weights, interties, total_kw);
        self.step_5_and_7(weights, interties, total_kw);
        total_kw
    }

    /// Sets the sizes and stage 1, and every other named word to 0.
    fn clear(&mut self, interties: usize, holders: usize) {
        self.interties = interties as u32;
        self.holders = holders as u32;
        self.stage = TRADING;
        self.last_taking_day = 0;
        for words in [&mut self.limit, &mut self.outside, &mut self.unassigned] {
            words[..interties].fill(0);
        }
        for words in [
            &mut self.load_share,
            &mut self.step5_share,
            &mut self.step7_total,
            &mut self.reserved,
            &mut self.unplaced,
            &mut self.sellers,
            &mut self.last_taking_week,
            &mut self.takings,
        ] {
            words[..holders].fill(0);
        }
        for pairs in [
            &mut self.existing,
            &mut self.pre_ra,
            &mut self.new_use,
            &mut self.placed,
            &mut self.taken,
            &mut self.locked,
            &mut self.lock_term,
            &mut self.pending,
        ] {
            for words in &mut pairs[..interties] {
                words[..holders].fill(0);
            }
        }
    }

    /// Step 4a: Pre-RA kW that a pair's contracts don't deliver already are
    /// claimed from what they left on the intertie; the shares are P.
    fn step_4a(&mut self, pre_ra: &KwPerPair, weights: &[u64], interties: usize) {
        for (intertie, pre_ra) in pre_ra[..interties].iter().enumerate() {
            let mut claims = [0; MAX_HOLDERS];
            let commitments = pre_ra.iter().zip(&self.existing[intertie]);
            for (claim, (&kw, &existing)) in claims[..weights.len()].iter_mut().zip(commitments) {
                *claim = kw.saturating_sub(u64::from(existing));
            }
            grant(
                &claims,
                weights,
                &mut self.unassigned[intertie],
                &mut self.pre_ra[intertie],
            );
        }
    }

    /// Step 4b: N from the New Use commitments, sorted by holder and rank.
    fn step_4b(
        &mut self,
        pre_ra: &KwPerPair,
        new_use: &[NewUse],
        weights: &[u64],
        interties: usize,
        total_kw: u64,
    ) {
        // A holder may keep new use up to its Load Share Quantity, counting what
        // it has by E and P.
        let all_load_shares = weights.iter().sum();
        let mut allowance = [0; MAX_HOLDERS];
        for (holder, &load_share) in weights.iter().enumerate() {
            let quantity = load_share_quantity(total_kw, load_share, all_load_shares);
            let used =
                kw_of(&self.existing, holder, interties) + kw_of(&self.pre_ra, holder, interties);
            allowance[holder] = quantity.saturating_sub(used);
        }

        // E that no Pre-RA kW need: new use at the pair is covered by it.
        let mut cover: KwPerPair = [[0; MAX_HOLDERS]; MAX_INTERTIES];
        for intertie in 0..interties {
            let contracts = self.existing[intertie].iter().zip(&pre_ra[intertie]);
            for (left, (&existing, &kw)) in
                cover[intertie][..weights.len()].iter_mut().zip(contracts)
            {
                *left = u64::from(existing).saturating_sub(kw);
            }
        }

        // A commitment draws on that cover first and on the allowance for the
        // rest; both run out from commitment to commitment. What the allowance
        // bears is claimed, added up for each pair.
        let mut claims: KwPerPair = [[0; MAX_HOLDERS]; MAX_INTERTIES];
        for record in new_use {
            let cover = &mut cover[record.intertie][record.holder];
            let covered = record.kw.min(*cover);
            *cover -= covered;
            let stays = (record.kw - covered).min(allowance[record.holder]);
            allowance[record.holder] -= stays;
            claims[record.intertie][record.holder] += stays;
        }

        // The claims share what Step 4a left over; the shares are N.
        for (intertie, claims) in claims[..interties].iter().enumerate() {
            grant(
                claims,
                weights,
                &mut self.unassigned[intertie],
                &mut self.new_use[intertie],
            );
        }
    }

    /// Step 5, the share of each holder, and Step 7, its total.
    fn step_5_and_7(&mut self, weights: &[u64], interties: usize, total_kw: u64) {
        // What a holder has by now, over all interties.
        let mut held = [0; MAX_HOLDERS];
        for (holder, kw) in held[..weights.len()].iter_mut().enumerate() {
            *kw = [&self.existing, &self.pre_ra, &self.new_use]
                .map(|pairs| kw_of(pairs, holder, interties))
                .iter()
                .sum();
        }

        // Rounds: whoever has as much as its part of what is left, or more, goes
        // out, and its kW and load share with it; all of a round are measured by
        // what the round began with. The last round is the first in which nobody
        // goes. kW are at most 960,000,000 and load shares together at most
        // 3,200,000,000: 64 bits hold both products.
        let mut eligible = [true; MAX_HOLDERS];
        let mut left_kw = total_kw;
        let mut left_shares: u64 = weights.iter().sum();
        loop {
            let (round_kw, round_shares) = (left_kw, left_shares);
            let mut excluded = false;
            for (holder, &load_share) in weights.iter().enumerate() {
                if eligible[holder] && held[holder] * round_shares >= round_kw * load_share {
                    eligible[holder] = false;
                    excluded = true;
                    left_kw -= held[holder];
                    left_shares -= load_share;
                }
            }
            if !excluded {
                break;
            }
        }

        for (holder, &load_share) in weights.iter().enumerate() {
            // Who is still in gets what its part of the rest, in whole kW, is
            // above what it has. Its part is above that, so there are load
            // shares to divide by, and nothing falls below 0.
            let share = if eligible[holder] {
                left_kw * load_share / left_shares - held[holder]
            } else {
                0
            };
            // The share is all still to be placed; with what the holder has
            // reserved it makes the total. None of them is above T.
            self.step5_share[holder] = share as u32;
            self.unplaced[holder] = share as u32;
            self.reserved[holder] = held[holder] as u32;
            self.step7_total[holder] = (held[holder] + share) as u32;
        }
    }
}

/// Shares an intertie's unassigned kW out over the claims of `weights.len()`
/// holders and moves the grants from unassigned to `granted`.
fn grant(
    claims: &[u64; MAX_HOLDERS],
    weights: &[u64],
    unassigned: &mut u32,
    granted: &mut [u32; MAX_HOLDERS],
) {
    let holders = weights.len();
    let mut grants = [0; MAX_HOLDERS];
    let answer = share_out(
        u64::from(*unassigned),
        &claims[..holders],
        weights,
        &mut grants,
    );
    debug_assert_eq!(answer.refusal, 0);
    // The grants together are at most the pool, 32 bits.
    *unassigned -= answer.kw as u32;
    for (word, &kw) in granted[..holders].iter_mut().zip(&grants) {
        *word = kw as u32;
    }
}

/// A holder's kW over all interties.
fn kw_of(pairs: &PerPair, holder: usize, interties: usize) -> u64 {
    pairs[..interties]
        .iter()
        .map(|words| u64::from(words[holder]))
        .sum()
}

#[cfg(test)]
mod tests {
    use super::*;
    use crate::sheet::samples::*;
    use crate::sheet::MAX_KW;

    fn opened(sheet: &[u8]) -> (Box<Year>, u64) {
        let mut year = Box::new(Year::blank());
        let answer = year.open(sheet, STATE_WORDS);
        assert_eq!((answer.refusal, answer.passes), (0, 0));
        assert!(year.is_orderly());
        (year, answer.kw)
    }

    #[test]
    fn case_i_state() {
        let (year, total_kw) = opened(&case_i());
        assert_eq!(total_kw, 100_000);
        let mut expected = Year::blank();
        expected.interties = 1;
        expected.holders = 3;
        expected.stage = 1;
        expected.limit[0] = 110_000;
        expected.outside[0] = 10_000;
        expected.load_share[..3].copy_from_slice(&[50_000, 30_000, 20_000]);
        expected.existing[0][2] = 30_000;
        expected.step5_share[..3].copy_from_slice(&[43_750, 26_250, 0]);
        expected.unplaced = expected.step5_share;
        expected.step7_total[..3].copy_from_slice(&[43_750, 26_250, 30_000]);
        expected.reserved[2] = 30_000;
        expected.unassigned[0] = 70_000;
        assert!(*year == expected);
    }

    #[test]
    fn refusals_and_the_lent_words() {
        let mut year = Box::new(Year::blank());
        assert_eq!(year.open(&case_i(), 15_999), Answer::refused(5));
        // The sheet's numbers come before 5.
        assert_eq!(year.open(&[0; 11], 0), Answer::refused(1));
        assert_eq!(year.open(&sheet(49, 1, &[]), 0), Answer::refused(2));
        assert_eq!(year.open(&sheet(1, 1, &[]), 0), Answer::refused(3));
        let above = sheet(
            1,
            1,
            &[limit(0, 100), outside(0, 60), existing(0, 0, 1, 41)],
        );
        assert_eq!(year.open(&above, 0), Answer::refused(4));
        assert!(*year == Year::blank());
    }

    #[test]
    fn a_used_state_is_opened_as_a_blank_one() {
        let (mut year, _) = opened(&case_i());
        year.stage = 4;
        year.sellers[1] = 5;
        year.last_taking_day = 99;
        year.placed[0][2] = 7;
        // Words of other sizes stay.
        year.placed[1][0] = 8;
        year.takings[3] = 9;
        assert_eq!(
            year.open(&case_i(), STATE_WORDS),
            Answer::granted(100_000, 0)
        );
        let mut expected = opened(&case_i()).0;
        expected.placed[1][0] = 8;
        expected.takings[3] = 9;
        assert!(year == expected);
    }

    #[test]
    fn pre_ra_kw_count_above_the_contracts_that_deliver_them() {
        // Holder 0 has 40 of its 100 Pre-RA kW by contract; 60 are left to
        // claim beside holder 1's 90, over the 60 kW that Step 3 left.
        let (year, _) = opened(&sheet(
            1,
            2,
            &[
                limit(0, 100),
                load_share(0, 2),
                load_share(1, 1),
                existing(0, 0, 1, 40),
                pre_ra(0, 0, 1, 70),
                pre_ra(1, 0, 1, 90),
                pre_ra(0, 0, 2, 30),
            ],
        ));
        assert_eq!(year.pre_ra[0][..2], [40, 20]);
        assert_eq!(year.unassigned[0], 0);
        assert_eq!(year.reserved[..2], [80, 20]);
        assert_eq!(year.step5_share[..2], [0, 0]);
    }

    #[test]
    fn new_use_is_covered_then_cut_by_rank() {
        // Load Share Quantity 500 each. Holder 0: E 300 at intertie 0, 100 of
        // it delivering Pre-RA kW, so 200 cover New Use there; the allowance is
        // 200. Rank 1: 150 covered whole. Rank 2: 50 covered, 70 stay. Rank 9:
        // 130 of 400 stay at intertie 1.
        let (year, total_kw) = opened(&sheet(
            2,
            2,
            &[
                limit(0, 600),
                limit(1, 400),
                load_share(0, 7),
                load_share(1, 7),
                new_use(0, 1, 9, 1, 400),
                new_use(0, 0, 2, 1, 120),
                existing(0, 0, 1, 300),
                pre_ra(0, 0, 1, 100),
                new_use(0, 0, 1, 1, 150),
            ],
        ));
        assert_eq!(total_kw, 1_000);
        assert_eq!(year.pre_ra[0][0], 0);
        assert_eq!(year.new_use[0][..2], [70, 0]);
        assert_eq!(year.new_use[1][..2], [130, 0]);
        assert_eq!(year.unassigned[..2], [230, 270]);
        assert_eq!(year.reserved[..2], [500, 0]);
        assert_eq!(year.step5_share[..2], [0, 500]);
        assert_eq!(year.step7_total[..2], [500, 500]);
    }

    #[test]
    fn exclusion_goes_on_round_by_round() {
        // T 100 and equal load shares. Holder 0's 80 are above a third of 100;
        // holder 1's 18 are not, but they are above half of the 20 then left.
        let (year, _) = opened(&sheet(
            1,
            3,
            &[
                limit(0, 100),
                load_share(0, 1),
                load_share(1, 1),
                load_share(2, 1),
                existing(0, 0, 1, 80),
                existing(1, 0, 1, 18),
            ],
        ));
        assert_eq!(year.step5_share[..3], [0, 0, 2]);
    }

    #[test]
    fn without_load_shares_nothing_is_assigned_in_step_5() {
        let (year, total_kw) = opened(&sheet(
            1,
            2,
            &[limit(0, 10), pre_ra(1, 0, 1, 20), new_use(0, 0, 1, 1, 5)],
        ));
        assert_eq!(total_kw, 10);
        assert_eq!(year.pre_ra[0][..2], [0, 10]);
        assert_eq!(year.new_use[0][..2], [0, 0]);
        assert_eq!(year.step5_share[..2], [0, 0]);
    }

    #[test]
    fn largest_numbers() {
        let limits = (0..48).map(|intertie| limit(intertie, MAX_KW));
        let shares = (0..32).map(|holder| load_share(holder, 100_000_000));
        let claims = (0..944).map(|_| pre_ra(31, 47, 30, MAX_KW));
        let records: Vec<_> = limits.chain(shares).chain(claims).collect();
        assert_eq!(records.len(), 1_024);
        let (year, total_kw) = opened(&sheet(48, 32, &records));
        assert_eq!(total_kw, 960_000_000);
        assert_eq!(year.pre_ra[47][31], MAX_KW);
        assert_eq!(
            year.step5_share[..32],
            [30_000_000; 31]
                .iter()
                .copied()
                .chain([10_000_000])
                .collect::<Vec<_>>()[..]
        );
    }
}
