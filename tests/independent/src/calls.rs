//! The calls of the year: trade, request, close, take, move and lock. In each,
//! `words` is the length of the lent state; a refusal changes nothing.

use std::ops::RangeInclusive;

use crate::answer::Answer;
use crate::share_out::{share_out, MAX_HOLDERS};
use crate::sheet::{MAX_KW, MAX_YEARS};
use crate::year::{
    all_zero, PerPair, Year, FIRST_REQUESTS, GRANT_WORDS, MAX_TAKINGS, OPEN, SECOND_REQUESTS,
    TRADING,
};

/// The stages in which each call runs.
const TRADE_STAGES: RangeInclusive<u32> = TRADING..=TRADING;
const REQUEST_STAGES: RangeInclusive<u32> = FIRST_REQUESTS..=SECOND_REQUESTS;
const CLOSE_STAGES: RangeInclusive<u32> = TRADING..=SECOND_REQUESTS;
const TAKE_STAGES: RangeInclusive<u32> = OPEN..=OPEN;
const MOVE_STAGES: RangeInclusive<u32> = SECOND_REQUESTS..=OPEN;
const LOCK_STAGES: RangeInclusive<u32> = OPEN..=OPEN;

impl Year {
    /// A trade, in stage 1: the buyer gets kW that the seller has unplaced, and
    /// remembers whom it bought from.
    pub fn trade(&mut self, words: usize, seller: u32, buyer: u32, kw: u64) -> Answer {
        answer(self.try_trade(words, seller, buyer, kw))
    }

    fn try_trade(&mut self, words: usize, seller: u32, buyer: u32, kw: u64) -> Result<Answer, u32> {
        self.check(words, TRADE_STAGES)?;
        let (seller, buyer) = self.two_holders(seller, buyer)?;
        let amount = kw_in_range(kw)?;
        // The seller hasn't as much.
        if amount > self.unplaced[seller] {
            return Err(10);
        }
        self.unplaced[seller] -= amount;
        self.unplaced[buyer] += amount;
        self.sellers[buyer] |= 1 << seller;
        Ok(Answer::granted(kw, 0))
    }

    /// A request, in stages 2 and 3: the holder asks for kW on an intertie, beside
    /// what it has asked for.
    pub fn request(&mut self, words: usize, holder: u32, intertie: u32, kw: u64) -> Answer {
        answer(self.try_request(words, holder, intertie, kw))
    }

    fn try_request(
        &mut self,
        words: usize,
        holder: u32,
        intertie: u32,
        kw: u64,
    ) -> Result<Answer, u32> {
        self.check(words, REQUEST_STAGES)?;
        let holder = self.holder(holder)?;
        let intertie = self.intertie(intertie)?;
        let amount = kw_in_range(kw)?;
        // With the earlier requests it is more than the holder has.
        if self.kw_of(&self.pending, holder) + kw > u64::from(self.unplaced[holder]) {
            return Err(10);
        }
        self.pending[intertie][holder] += amount;
        Ok(Answer::granted(kw, 0))
    }

    /// A closing, which leads to the next stage. After the two stages of requests
    /// it decides them, intertie by intertie. The grants buffer gets a row of
    /// interties for each holder (0 where nothing is decided) and keeps what
    /// stands behind. Answers kW and passes added up.
    pub fn close(&mut self, words: usize, grants: &mut [u32]) -> Answer {
        answer(self.try_close(words, grants))
    }

    fn try_close(&mut self, words: usize, grants: &mut [u32]) -> Result<Answer, u32> {
        // A short buffer counts like a short state.
        if grants.len() < GRANT_WORDS {
            return Err(5);
        }
        self.check(words, CLOSE_STAGES)?;
        let interties = self.interties as usize;
        let holders = self.holders as usize;
        grants[..holders * interties].fill(0);

        let mut total = Answer::granted(0, 0);
        if self.stage != TRADING {
            let weights = self.weights();
            for intertie in 0..interties {
                let closed = self.close_intertie(intertie, &weights[..holders], grants);
                total.kw += closed.kw;
                total.passes += closed.passes;
            }
        }
        self.stage += 1;
        Ok(total)
    }

    /// Decides the requests on one intertie: what is granted is placed from now
    /// on, and no longer unassigned or unplaced; all requests are dropped.
    fn close_intertie(&mut self, intertie: usize, weights: &[u64], grants: &mut [u32]) -> Answer {
        let holders = weights.len();
        let pending = &mut self.pending[intertie][..holders];
        // Where nobody asked, all claims are met in 0 passes with 0 kW.
        if all_zero(pending) {
            return Answer::granted(0, 0);
        }
        let mut claims = [0; MAX_HOLDERS];
        for (claim, kw) in claims.iter_mut().zip(pending) {
            *claim = u64::from(std::mem::take(kw));
        }
        let pool = u64::from(self.unassigned[intertie]);
        let mut shares = [0; MAX_HOLDERS];
        let shared = share_out(pool, &claims[..holders], weights, &mut shares);

        // Each grant is at most its pending, so all of these fit 32 bits.
        self.unassigned[intertie] -= shared.kw as u32;
        let column = grants[intertie..]
            .iter_mut()
            .step_by(self.interties as usize);
        let places = self.placed[intertie].iter_mut().zip(&mut self.unplaced);
        for ((&share, grant), (placed, unplaced)) in
            shares[..holders].iter().zip(column).zip(places)
        {
            let kw = share as u32;
            *grant = kw;
            *placed += kw;
            *unplaced -= kw;
        }
        shared
    }

    /// What each holder weighs in a closing. One without a load share has the
    /// average of those it bought from.
    fn weights(&self) -> [u64; MAX_HOLDERS] {
        let mut weights = [0; MAX_HOLDERS];
        for (holder, weight) in weights[..self.holders as usize].iter_mut().enumerate() {
            *weight = match self.load_share[holder] {
                0 => self.sellers_average(self.sellers[holder]),
                load_share => u64::from(load_share),
            };
        }
        weights
    }

    /// The average load share of the holders in a mask, each counted once.
    fn sellers_average(&self, sellers: u32) -> u64 {
        let mut sum = 0;
        let mut left = sellers;
        while left != 0 {
            sum += u64::from(self.load_share[left.trailing_zeros() as usize]);
            left &= left - 1;
        }
        sum.checked_div(u64::from(sellers.count_ones()))
            .unwrap_or(0)
    }

    /// A taking, in stage 4, on a day: as much of the kW as the intertie has
    /// unassigned. Answers how much that was.
    pub fn take(&mut self, words: usize, holder: u32, intertie: u32, kw: u64, day: u32) -> Answer {
        answer(self.try_take(words, holder, intertie, kw, day))
    }

    fn try_take(
        &mut self,
        words: usize,
        holder: u32,
        intertie: u32,
        kw: u64,
        day: u32,
    ) -> Result<Answer, u32> {
        self.check(words, TAKE_STAGES)?;
        let holder = self.holder(holder)?;
        let intertie = self.intertie(intertie)?;
        let amount = kw_in_range(kw)?;
        // In another week than its last one, a holder has none yet.
        let week = day / 7;
        let count = if self.last_taking_week[holder] == week {
            self.takings[holder]
        } else {
            0
        };
        // The calendar only goes forward, and a week has two.
        if day < self.last_taking_day || count >= MAX_TAKINGS {
            return Err(11);
        }
        // There is nothing to take.
        if self.unassigned[intertie] == 0 {
            return Err(12);
        }
        let granted = amount.min(self.unassigned[intertie]);
        self.unassigned[intertie] -= granted;
        self.taken[intertie][holder] += granted;
        self.last_taking_day = day;
        self.last_taking_week[holder] = week;
        self.takings[holder] = count + 1;
        Ok(Answer::granted(u64::from(granted), 0))
    }

    /// A move, in stages 3 and 4: kW that a holder placed on an intertie become
    /// another's there. Locked ones can't go.
    pub fn move_kw(&mut self, words: usize, from: u32, to: u32, intertie: u32, kw: u64) -> Answer {
        answer(self.try_move(words, from, to, intertie, kw))
    }

    fn try_move(
        &mut self,
        words: usize,
        from: u32,
        to: u32,
        intertie: u32,
        kw: u64,
    ) -> Result<Answer, u32> {
        self.check(words, MOVE_STAGES)?;
        let (from, to) = self.two_holders(from, to)?;
        let intertie = self.intertie(intertie)?;
        let amount = kw_in_range(kw)?;
        // The giver hasn't as much that is free.
        let placed = &mut self.placed[intertie];
        if amount > placed[from] - self.locked[intertie][from] {
            return Err(10);
        }
        placed[from] -= amount;
        placed[to] += amount;
        Ok(Answer::granted(kw, 0))
    }

    /// A lock, in stage 4, one for a pair: placed kW are kept for years, as long
    /// as three quarters of the holder's Step 7 total bear it with the reserved.
    pub fn lock(&mut self, words: usize, holder: u32, intertie: u32, kw: u64, term: u32) -> Answer {
        answer(self.try_lock(words, holder, intertie, kw, term))
    }

    fn try_lock(
        &mut self,
        words: usize,
        holder: u32,
        intertie: u32,
        kw: u64,
        term: u32,
    ) -> Result<Answer, u32> {
        self.check(words, LOCK_STAGES)?;
        let holder = self.holder(holder)?;
        let intertie = self.intertie(intertie)?;
        let amount = kw_in_range(kw)?;
        // The years of a lock are those of a commitment.
        if !(1..=MAX_YEARS).contains(&term) {
            return Err(9);
        }
        // The pair hasn't as much placed.
        if amount > self.placed[intertie][holder] {
            return Err(10);
        }
        // The pair is locked already, or this lock passes the three quarters.
        let tied = u64::from(self.reserved[holder]) + self.kw_of(&self.locked, holder) + kw;
        if self.locked[intertie][holder] > 0 || 4 * tied > 3 * u64::from(self.step7_total[holder]) {
            return Err(13);
        }
        self.locked[intertie][holder] = amount;
        self.lock_term[intertie][holder] = term;
        Ok(Answer::granted(kw, 0))
    }

    /// A holder's kW over all interties.
    pub(crate) fn kw_of(&self, pairs: &PerPair, holder: usize) -> u64 {
        pairs[..self.interties as usize]
            .iter()
            .map(|words| u64::from(words[holder]))
            .sum()
    }

    /// A holder of the year, or refusal 8.
    fn holder(&self, holder: u32) -> Result<usize, u32> {
        if holder < self.holders {
            Ok(holder as usize)
        } else {
            Err(8)
        }
    }

    /// An intertie of the year, or refusal 8.
    fn intertie(&self, intertie: u32) -> Result<usize, u32> {
        if intertie < self.interties {
            Ok(intertie as usize)
        } else {
            Err(8)
        }
    }

    /// Two holders of the year that aren't the same, or refusal 8.
    fn two_holders(&self, from: u32, to: u32) -> Result<(usize, usize), u32> {
        if from == to {
            return Err(8);
        }
        Ok((self.holder(from)?, self.holder(to)?))
    }
}

/// The kW of a call as a word, or refusal 9.
fn kw_in_range(kw: u64) -> Result<u32, u32> {
    match u32::try_from(kw) {
        Ok(word) if (1..=MAX_KW).contains(&word) => Ok(word),
        _ => Err(9),
    }
}

/// The answer of a call that ended granted or with a refusal number.
fn answer(result: Result<Answer, u32>) -> Answer {
    result.unwrap_or_else(Answer::refused)
}

#[cfg(test)]
mod tests {
    use super::*;
    use crate::sheet::samples::*;
    use crate::year::STATE_WORDS;

    fn opened(sheet: &[u8]) -> Box<Year> {
        let mut year = Box::new(Year::blank());
        assert_eq!(year.open(sheet, STATE_WORDS).refusal, 0);
        year
    }

    fn ok(kw: u64) -> Answer {
        Answer::granted(kw, 0)
    }

    fn no(number: u32) -> Answer {
        Answer::refused(number)
    }

    fn close(year: &mut Year) -> Answer {
        year.close(STATE_WORDS, &mut [9; GRANT_WORDS])
    }

    /// A year in stage 4: one intertie of 100 kW, one holder with 30 existing,
    /// Step 7 total 100 and 46 placed.
    fn case_h_year() -> Box<Year> {
        let records = [limit(0, 100), load_share(0, 1), existing(0, 0, 1, 30)];
        let mut year = opened(&sheet(1, 1, &records));
        close(&mut year);
        assert_eq!(year.request(STATE_WORDS, 0, 0, 46), ok(46));
        assert_eq!(close(&mut year), ok(46));
        close(&mut year);
        assert_eq!(
            (year.reserved[0], year.step7_total[0], year.placed[0][0]),
            (30, 100, 46)
        );
        year
    }

    #[test]
    fn case_g() {
        let records = [
            limit(0, 1_000),
            load_share(0, 50_000),
            load_share(1, 30_000),
        ];
        let mut year = opened(&sheet(1, 4, &records));
        assert_eq!(year.weights()[..4], [50_000, 30_000, 0, 0]);
        assert_eq!(year.trade(STATE_WORDS, 0, 2, 1), ok(1));
        assert_eq!(year.trade(STATE_WORDS, 1, 2, 1), ok(1));
        assert_eq!(year.trade(STATE_WORDS, 0, 2, 1), ok(1));
        assert_eq!(year.weights()[..4], [50_000, 30_000, 40_000, 0]);
    }

    #[test]
    fn case_h() {
        let mut year = case_h_year();
        assert_eq!(year.lock(STATE_WORDS, 0, 0, 46, 1), no(13));
        assert_eq!(year.lock(STATE_WORDS, 0, 0, 45, 30), ok(45));
        assert_eq!((year.locked[0][0], year.lock_term[0][0]), (45, 30));
        assert!(year.is_orderly());
    }

    #[test]
    fn locks_are_refused_by_the_lowest_number() {
        let mut year = case_h_year();
        assert_eq!(year.lock(15_999, 9, 9, 0, 0), no(5));
        assert_eq!(year.lock(STATE_WORDS, 1, 0, 0, 0), no(8));
        assert_eq!(year.lock(STATE_WORDS, 0, 1, 0, 0), no(8));
        assert_eq!(year.lock(STATE_WORDS, 0, 0, 47, 31), no(9));
        assert_eq!(year.lock(STATE_WORDS, 0, 0, 1, 0), no(9));
        assert_eq!(year.lock(STATE_WORDS, 0, 0, 20_000_001, 1), no(9));
        assert_eq!(year.lock(STATE_WORDS, 0, 0, 1 << 32 | 1, 1), no(9));
        assert_eq!(year.lock(STATE_WORDS, 0, 0, 47, 1), no(10));
        assert_eq!(year.lock(STATE_WORDS, 0, 0, 1, 1), ok(1));
        assert_eq!(year.lock(STATE_WORDS, 0, 0, 1, 1), no(13));
        assert_eq!(year.lock(STATE_WORDS, 0, 0, 47, 1), no(10));
        year.stage = 9;
        assert_eq!(year.lock(STATE_WORDS, 9, 9, 0, 0), no(6));
    }

    #[test]
    fn trades() {
        let mut year = opened(&case_i());
        assert_eq!(year.trade(STATE_WORDS, 1, 1, 0), no(8));
        assert_eq!(year.trade(STATE_WORDS, 1, 3, 0), no(8));
        assert_eq!(year.trade(STATE_WORDS, 3, 1, 0), no(8));
        assert_eq!(year.trade(STATE_WORDS, 0, 1, 0), no(9));
        assert_eq!(year.trade(STATE_WORDS, 0, 1, 43_751), no(10));
        assert_eq!(year.trade(STATE_WORDS, 0, 2, 43_750), ok(43_750));
        assert_eq!(year.unplaced[..3], [0, 26_250, 43_750]);
        assert_eq!(year.sellers[..3], [0, 0, 1]);
        year.stage = 2;
        assert_eq!(year.trade(STATE_WORDS, 1, 1, 0), no(7));
        assert_eq!(year.trade(15_999, 1, 1, 0), no(5));
    }

    #[test]
    fn requests_and_closings() {
        let mut year = opened(&case_i());
        let mut grants = [9; GRANT_WORDS + 1];
        assert_eq!(year.request(STATE_WORDS, 0, 0, 1), no(7));
        assert_eq!(
            year.close(STATE_WORDS, &mut grants[..GRANT_WORDS - 1]),
            no(5)
        );
        assert_eq!(year.close(15_999, &mut grants), no(5));
        assert_eq!(grants, [9; GRANT_WORDS + 1]);
        assert_eq!(year.close(STATE_WORDS, &mut grants), ok(0));
        assert_eq!(grants[..4], [0, 0, 0, 9]);
        assert_eq!(year.stage, 2);

        assert_eq!(year.request(STATE_WORDS, 0, 0, 43_000), ok(43_000));
        assert_eq!(year.request(STATE_WORDS, 0, 0, 751), no(10));
        assert_eq!(year.request(STATE_WORDS, 0, 0, 750), ok(750));
        assert_eq!(year.request(STATE_WORDS, 3, 0, 0), no(8));
        assert_eq!(year.request(STATE_WORDS, 0, 1, 0), no(8));
        assert_eq!(year.request(STATE_WORDS, 0, 0, 0), no(9));
        assert_eq!(year.request(STATE_WORDS, 1, 0, 250), ok(250));
        assert_eq!(year.close(STATE_WORDS, &mut grants), ok(44_000));
        assert_eq!(grants[..4], [43_750, 250, 0, 9]);
        assert_eq!(year.placed[0][..3], [43_750, 250, 0]);
        assert_eq!(year.unplaced[..3], [0, 26_000, 0]);
        assert_eq!(year.unassigned[0], 26_000);
        assert_eq!(year.pending[0][..3], [0, 0, 0]);
        assert_eq!(close(&mut year), ok(0));
        assert_eq!(year.stage, 4);
        assert_eq!(year.close(STATE_WORDS, &mut grants), no(7));
        assert!(year.is_orderly());
    }

    #[test]
    fn a_scarce_intertie_is_shared_out() {
        // Intertie 1 has 7 kW for 9 each at weights 3, 1 and 1 (case c);
        // intertie 0 meets all.
        let records = [
            limit(0, 100),
            limit(1, 7),
            load_share(0, 3),
            load_share(1, 1),
            load_share(2, 1),
        ];
        let mut year = opened(&sheet(2, 3, &records));
        close(&mut year);
        for holder in 0..3 {
            assert_eq!(year.request(STATE_WORDS, holder, 1, 9), ok(9));
        }
        assert_eq!(year.request(STATE_WORDS, 2, 0, 4), ok(4));
        let mut grants = [9; GRANT_WORDS];
        assert_eq!(year.close(STATE_WORDS, &mut grants), Answer::granted(11, 2));
        assert_eq!(grants[..7], [0, 5, 0, 1, 4, 1, 9]);
        assert_eq!(year.unassigned[..2], [96, 0]);
        assert!(year.is_orderly());
    }

    #[test]
    fn takings() {
        let mut year = case_h_year();
        assert_eq!(year.unassigned[0], 24);
        assert_eq!(year.take(15_999, 1, 0, 0, 0), no(5));
        assert_eq!(year.take(STATE_WORDS, 1, 0, 0, 0), no(8));
        assert_eq!(year.take(STATE_WORDS, 0, 1, 0, 0), no(8));
        assert_eq!(year.take(STATE_WORDS, 0, 0, 0, 0), no(9));
        assert_eq!(year.take(STATE_WORDS, 0, 0, 1, 21), ok(1));
        assert_eq!(year.take(STATE_WORDS, 0, 0, 1, 20), no(11));
        assert_eq!(year.take(STATE_WORDS, 0, 0, 1, 27), ok(1));
        assert_eq!(year.take(STATE_WORDS, 0, 0, 1, 27), no(11));
        assert_eq!((year.last_taking_week[0], year.takings[0]), (3, 2));
        assert_eq!(year.take(STATE_WORDS, 0, 0, 20_000_000, 28), ok(22));
        assert_eq!((year.last_taking_week[0], year.takings[0]), (4, 1));
        assert_eq!(year.take(STATE_WORDS, 0, 0, 1, 27), no(11));
        assert_eq!(year.take(STATE_WORDS, 0, 0, 1, u32::MAX), no(12));
        assert_eq!((year.last_taking_day, year.taken[0][0]), (28, 24));
        assert!(year.is_orderly());
        // Taken kW can't be locked.
        assert_eq!(year.lock(STATE_WORDS, 0, 0, 47, 1), no(10));
    }

    #[test]
    fn moves() {
        let mut year = opened(&sheet(1, 2, &[limit(0, 100), load_share(0, 1)]));
        close(&mut year);
        assert_eq!(year.move_kw(STATE_WORDS, 0, 0, 9, 0), no(7));
        assert_eq!(year.request(STATE_WORDS, 0, 0, 50), ok(50));
        close(&mut year);
        assert_eq!(year.move_kw(STATE_WORDS, 0, 0, 0, 0), no(8));
        assert_eq!(year.move_kw(STATE_WORDS, 0, 1, 1, 0), no(8));
        assert_eq!(year.move_kw(STATE_WORDS, 0, 1, 0, 0), no(9));
        assert_eq!(year.move_kw(STATE_WORDS, 0, 1, 0, 51), no(10));
        assert_eq!(year.move_kw(STATE_WORDS, 0, 1, 0, 10), ok(10));
        close(&mut year);
        assert_eq!(year.lock(STATE_WORDS, 0, 0, 35, 2), ok(35));
        assert_eq!(year.move_kw(STATE_WORDS, 0, 1, 0, 6), no(10));
        assert_eq!(year.move_kw(STATE_WORDS, 0, 1, 0, 5), ok(5));
        assert_eq!(year.placed[0][..2], [35, 15]);
        assert!(year.is_orderly());
    }

    /// A long list of calls: the state stays orderly, and a refusal changes
    /// nothing.
    #[test]
    fn lists_of_calls_stay_orderly() {
        let mut seed = 12_345u64;
        let mut below = |n: u64| {
            seed = seed
                .wrapping_mul(6_364_136_223_846_793_005)
                .wrapping_add(1_442_695_040_888_963_407);
            (seed >> 33) % n
        };
        for _ in 0..20 {
            let interties = 1 + below(4) as u32;
            let holders = 1 + below(5) as u32;
            let mut records = Vec::new();
            for intertie in 0..interties {
                records.push(limit(intertie, below(300) as u32));
            }
            for holder in 0..holders {
                records.push(load_share(holder, below(3) as u32 * 50));
                for rank in 1..=below(4) as u32 {
                    let intertie = below(u64::from(interties)) as u32;
                    records.push(new_use(holder, intertie, rank, 1, 1 + below(50) as u32));
                    records.push(pre_ra(holder, intertie, 2, 1 + below(50) as u32));
                }
            }
            let mut year = opened(&sheet(interties, holders, &records));
            assert!(year.is_orderly());
            let mut day = 0;
            for _ in 0..300 {
                let before = year.clone();
                let (one, other) = (below(6) as u32, below(6) as u32);
                let intertie = below(5) as u32;
                let kw = below(40);
                day += below(3) as u32;
                let answer = match below(40) {
                    0 => close(&mut year),
                    1..=10 => year.trade(STATE_WORDS, one, other, kw),
                    11..=20 => year.request(STATE_WORDS, one, intertie, kw),
                    21..=25 => year.take(STATE_WORDS, one, intertie, kw, day),
                    26..=32 => year.move_kw(STATE_WORDS, one, other, intertie, kw),
                    _ => year.lock(STATE_WORDS, one, intertie, kw, below(31) as u32),
                };
                assert!(year.is_orderly());
                assert_eq!(answer.refusal != 0, year == before);
            }
        }
    }
}
