//! The year's state, and when it is orderly.

use std::ops::RangeInclusive;

use crate::share_out::MAX_HOLDERS;
use crate::sheet::{MAX_INTERTIES, MAX_KW, MAX_LOAD_SHARE, MAX_YEARS};

/// How many words a state is lent at least.
pub const STATE_WORDS: usize = 16_000;
/// How many words a closing's grants are lent at least: one for every pair.
pub const GRANT_WORDS: usize = MAX_INTERTIES * MAX_HOLDERS;
/// The most that Step 5 share, Step 7 total, reserved and all unplaced may be.
pub const MAX_TOTAL_KW: u32 = 960_000_000;
/// How often a holder may take in a week.
pub const MAX_TAKINGS: u32 = 2;

/// The stages of the year.
pub const TRADING: u32 = 1;
pub const FIRST_REQUESTS: u32 = 2;
pub const SECOND_REQUESTS: u32 = 3;
pub const OPEN: u32 = 4;

/// A word for each intertie.
pub type PerIntertie = [u32; MAX_INTERTIES];
/// A word for each holder.
pub type PerHolder = [u32; MAX_HOLDERS];
/// A word for each holder on each intertie, as `field[intertie][holder]`.
pub type PerPair = [[u32; MAX_HOLDERS]; MAX_INTERTIES];

/// The words of the year's state. Those of interties and holders that the year
/// doesn't have belong to nobody; no call looks at them or changes them.
#[derive(Clone, Debug, PartialEq, Eq)]
pub struct Year {
    /// How many interties the year has.
    pub interties: u32,
    /// How many holders it has.
    pub holders: u32,
    /// One of the stages above.
    pub stage: u32,
    pub limit: PerIntertie,
    pub outside: PerIntertie,
    pub load_share: PerHolder,
    /// E, the existing contracts.
    pub existing: PerPair,
    /// P, what Step 4a gives.
    pub pre_ra: PerPair,
    /// N, what Step 4b gives.
    pub new_use: PerPair,
    pub step5_share: PerHolder,
    pub step7_total: PerHolder,
    pub reserved: PerHolder,
    pub unplaced: PerHolder,
    /// For each buyer, bit s is set when holder s has sold to it.
    pub sellers: PerHolder,
    pub last_taking_week: PerHolder,
    /// The takings in the last taking's week.
    pub takings: PerHolder,
    pub placed: PerPair,
    pub taken: PerPair,
    pub locked: PerPair,
    pub lock_term: PerPair,
    pub pending: PerPair,
    pub unassigned: PerIntertie,
    pub last_taking_day: u32,
}

impl Year {
    /// A state with every word 0; it isn't orderly before it is opened.
    pub const fn blank() -> Self {
        const INTERTIES: PerIntertie = [0; MAX_INTERTIES];
        const HOLDERS: PerHolder = [0; MAX_HOLDERS];
        const PAIRS: PerPair = [HOLDERS; MAX_INTERTIES];
        Year {
            interties: 0,
            holders: 0,
            stage: 0,
            limit: INTERTIES,
            outside: INTERTIES,
            load_share: HOLDERS,
            existing: PAIRS,
            pre_ra: PAIRS,
            new_use: PAIRS,
            step5_share: HOLDERS,
            step7_total: HOLDERS,
            reserved: HOLDERS,
            unplaced: HOLDERS,
            sellers: HOLDERS,
            last_taking_week: HOLDERS,
            takings: HOLDERS,
            placed: PAIRS,
            taken: PAIRS,
            locked: PAIRS,
            lock_term: PAIRS,
            pending: PAIRS,
            unassigned: INTERTIES,
            last_taking_day: 0,
        }
    }

    /// Whether the state is orderly, for any words. The sizes are tested before
    /// anything is indexed.
    pub fn is_orderly(&self) -> bool {
        // Nothing else can be looked at before these.
        let interties = self.interties as usize;
        let holders = self.holders as usize;
        (1..=MAX_INTERTIES).contains(&interties)
            && (1..=MAX_HOLDERS).contains(&holders)
            && (TRADING..=OPEN).contains(&self.stage)
            && self.holders_are_orderly(holders)
            && (0..interties).all(|intertie| self.intertie_balances(intertie, holders))
            && (0..interties).all(|intertie| self.locks_are_orderly(intertie, holders))
            && self.pending_is_orderly(interties, holders)
    }

    /// The words per holder.
    fn holders_are_orderly(&self, holders: usize) -> bool {
        let all_at_most = |words: &PerHolder, most| words[..holders].iter().all(|&w| w <= most);
        let unplaced: u64 = self.unplaced[..holders]
            .iter()
            .map(|&kw| u64::from(kw))
            .sum();
        // Only the year's own holders can have sold.
        let strangers = u32::MAX.checked_shl(self.holders).unwrap_or(0);
        all_at_most(&self.load_share, MAX_LOAD_SHARE)
            && unplaced <= u64::from(MAX_TOTAL_KW)
            && all_at_most(&self.step5_share, MAX_TOTAL_KW)
            && all_at_most(&self.step7_total, MAX_TOTAL_KW)
            && all_at_most(&self.reserved, MAX_TOTAL_KW)
            && all_at_most(&self.takings, MAX_TAKINGS)
            && self.sellers[..holders]
                .iter()
                .all(|&mask| mask & strangers == 0)
    }

    /// Whether the parts of an intertie make up its limit, added in 64 bits, and
    /// the limit is one that a sheet may have.
    fn intertie_balances(&self, intertie: usize, holders: usize) -> bool {
        let existing = &self.existing[intertie][..holders];
        let pre_ra = &self.pre_ra[intertie][..holders];
        let new_use = &self.new_use[intertie][..holders];
        let placed = &self.placed[intertie][..holders];
        let taken = &self.taken[intertie][..holders];
        let mut used = u64::from(self.outside[intertie]) + u64::from(self.unassigned[intertie]);
        for holder in 0..holders {
            used += u64::from(existing[holder])
                + u64::from(pre_ra[holder])
                + u64::from(new_use[holder])
                + u64::from(placed[holder])
                + u64::from(taken[holder]);
        }
        let limit = self.limit[intertie];
        limit <= MAX_KW && used == u64::from(limit)
    }

    /// Whether only placed kW are locked, and years stand just where there is a
    /// lock.
    fn locks_are_orderly(&self, intertie: usize, holders: usize) -> bool {
        let placed = &self.placed[intertie][..holders];
        let locked = &self.locked[intertie][..holders];
        let lock_term = &self.lock_term[intertie][..holders];
        // Most interties have no lock at all.
        if all_zero(locked) && all_zero(lock_term) {
            return true;
        }
        let mut pairs = placed.iter().zip(locked).zip(lock_term);
        pairs.all(|((&placed, &locked), &term)| match locked {
            0 => term == 0,
            _ => locked <= placed && (1..=MAX_YEARS).contains(&term),
        })
    }

    /// Whether requests stand in the stages of requests alone, and within what
    /// their holders have unplaced.
    fn pending_is_orderly(&self, interties: usize, holders: usize) -> bool {
        let pending = &self.pending[..interties];
        if !(FIRST_REQUESTS..=SECOND_REQUESTS).contains(&self.stage) {
            return pending.iter().all(|words| all_zero(&words[..holders]));
        }
        let mut asked = [0u64; MAX_HOLDERS];
        for words in pending {
            for (sum, &kw) in asked[..holders].iter_mut().zip(words) {
                *sum += u64::from(kw);
            }
        }
        let mut sums = asked[..holders].iter().zip(&self.unplaced);
        sums.all(|(&sum, &unplaced)| sum <= u64::from(unplaced))
    }

    /// What every call asks first, by rising refusal: whether the state is long
    /// enough (5), orderly (6) and in one of the call's stages (7).
    pub(crate) fn check(&self, words: usize, stages: RangeInclusive<u32>) -> Result<(), u32> {
        if words < STATE_WORDS {
            Err(5)
        } else if !self.is_orderly() {
            Err(6)
        } else if !stages.contains(&self.stage) {
            Err(7)
        } else {
            Ok(())
        }
    }
}

/// Whether every word is 0.
pub(crate) fn all_zero(words: &[u32]) -> bool {
    words.iter().fold(0, |any, &word| any | word) == 0
}

#[cfg(test)]
mod tests {
    use super::*;
    use crate::sheet::samples::*;

    fn opened() -> Box<Year> {
        let mut year = Box::new(Year::blank());
        assert_eq!(year.open(&case_i(), STATE_WORDS).refusal, 0);
        assert!(year.is_orderly());
        year
    }

    /// Whether the year of case i is orderly after a change.
    fn after(change: impl FnOnce(&mut Year)) -> bool {
        let mut year = opened();
        change(&mut year);
        year.is_orderly()
    }

    #[test]
    fn any_words_can_be_tested() {
        assert!(!Year::blank().is_orderly());
        for size in [0, 49, u32::MAX] {
            assert!(!after(|year| year.interties = size));
        }
        for size in [0, 33, u32::MAX] {
            assert!(!after(|year| year.holders = size));
        }
        for stage in [0, 5, 9, u32::MAX] {
            assert!(!after(|year| year.stage = stage));
        }
        assert!(after(|year| year.stage = 4));
    }

    #[test]
    fn words_no_rule_names_are_not_read() {
        assert!(after(|year| {
            year.limit[1] = u32::MAX;
            year.load_share[3] = u32::MAX;
            year.takings[3] = u32::MAX;
            year.pending[0][3] = u32::MAX;
            year.pending[1][0] = u32::MAX;
            year.placed[0][3] = u32::MAX;
            year.last_taking_week[0] = u32::MAX;
            year.last_taking_day = u32::MAX;
        }));
    }

    #[test]
    fn limits_and_load_shares() {
        let at = |kw| {
            after(|year| {
                year.limit[0] = kw;
                year.unassigned[0] = kw - 40_000;
            })
        };
        assert!(at(MAX_KW));
        assert!(!at(MAX_KW + 1));
        assert!(after(|year| year.load_share[2] = MAX_LOAD_SHARE));
        assert!(!after(|year| year.load_share[2] = MAX_LOAD_SHARE + 1));
    }

    #[test]
    fn balance_of_an_intertie() {
        assert!(!after(|year| year.unassigned[0] -= 1));
        assert!(!after(|year| year.taken[0][2] += 1));
        assert!(!after(|year| year.pre_ra[0][2] += 1));
        assert!(!after(|year| year.new_use[0][0] += 1));
        assert!(!after(|year| year.outside[0] += 1));
        assert!(!after(|year| year.existing[0][2] -= 1));
        assert!(after(|year| {
            year.unassigned[0] -= 3;
            year.placed[0][1] = 3;
        }));
        // The words add up to the limit in 32 bits only.
        assert!(!after(|year| {
            year.placed[0][0] = 1 << 31;
            year.placed[0][1] = 1 << 31;
        }));
    }

    #[test]
    fn locks() {
        let with = |locked, term| {
            after(|year| {
                year.unassigned[0] -= 5;
                year.placed[0][1] = 5;
                year.locked[0][1] = locked;
                year.lock_term[0][1] = term;
            })
        };
        assert!(with(0, 0));
        assert!(with(5, 1));
        assert!(with(1, 30));
        assert!(!with(6, 1));
        assert!(!with(5, 0));
        assert!(!with(5, 31));
        assert!(!with(0, 1));
    }

    #[test]
    fn pending_kw() {
        let with = |stage, kw| {
            after(|year| {
                year.stage = stage;
                year.pending[0][1] = kw;
            })
        };
        assert!(with(2, 26_250));
        assert!(with(3, 26_250));
        assert!(!with(2, 26_251));
        assert!(!with(1, 1));
        assert!(!with(4, 1));
    }

    #[test]
    fn totals_takings_and_sellers() {
        assert!(after(|year| year.step5_share[2] = MAX_TOTAL_KW));
        assert!(!after(|year| year.step5_share[2] = MAX_TOTAL_KW + 1));
        assert!(!after(|year| year.step7_total[0] = MAX_TOTAL_KW + 1));
        assert!(!after(|year| year.reserved[1] = MAX_TOTAL_KW + 1));
        assert!(after(|year| year.unplaced = [320_000_000; MAX_HOLDERS]));
        assert!(!after(|year| year.unplaced = [320_000_001; MAX_HOLDERS]));
        assert!(!after(|year| year.unplaced = [1 << 31; MAX_HOLDERS]));
        assert!(after(|year| year.takings[2] = 2));
        assert!(!after(|year| year.takings[2] = 3));
        assert!(after(|year| year.sellers[1] = 0b111));
        assert!(!after(|year| year.sellers[1] = 0b1000));
        assert!(after(|year| {
            year.holders = 32;
            year.sellers[31] = u32::MAX;
        }));
    }
}
