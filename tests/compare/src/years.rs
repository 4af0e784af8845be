//! Random orderly years, also such as no opening leaves: every word anything that the rule of the orderly
//! state allows.

use crate::numbers::Numbers;
use crate::sheets;
use independent::sheet::{MAX_KW, MAX_LOAD_SHARE, MAX_YEARS};
use independent::year::{
    Year, FIRST_REQUESTS, MAX_TAKINGS, MAX_TOTAL_KW, OPEN, SECOND_REQUESTS, TRADING,
};

/// An orderly year, more often in a stage of requests than in the others.
pub fn orderly(r: &mut Numbers) -> Box<Year> {
    let (interties, holders) = sheets::sizes(r);
    let stage = r.one_of(&[
        TRADING,
        FIRST_REQUESTS,
        FIRST_REQUESTS,
        SECOND_REQUESTS,
        SECOND_REQUESTS,
        OPEN,
    ]);
    orderly_of(interties, holders, stage, r)
}

/// An orderly year of these sizes, in this stage.
pub fn orderly_of(interties: usize, holders: usize, stage: u32, r: &mut Numbers) -> Box<Year> {
    let mut year = Box::new(Year::blank());
    year.interties = interties as u32;
    year.holders = holders as u32;
    year.stage = stage;
    let most_kw = r.one_of(&[3, 100, 5_000, 1_000_000, MAX_KW, MAX_KW]);
    for intertie in 0..interties {
        split_limit(&mut year, intertie, most_kw, r);
        lock_some(&mut year, intertie, r);
    }
    holders_words(&mut year, r);
    if [FIRST_REQUESTS, SECOND_REQUESTS].contains(&year.stage) {
        ask(&mut year, r);
    }
    assert!(year.is_orderly());
    year
}

/// A number up to `most`, often at one of the ends.
fn up_to(most: u32, r: &mut Numbers) -> u32 {
    match r.below(8) {
        0 => 0,
        1 => most,
        _ => r.below(u64::from(most) + 1) as u32,
    }
}

/// Gives an intertie a limit and splits it over outside rights, the pairs' kW and unassigned.
fn split_limit(year: &mut Year, intertie: usize, most_kw: u32, r: &mut Numbers) {
    let limit = up_to(most_kw, r);
    let (most, rarely) = (limit / r.one_of(&[2, 20, 200]), r.one_of(&[2, 8, 40]));
    let mut left = limit;
    let mut split_off = |r: &mut Numbers| {
        let kw = if r.once_in(rarely) {
            up_to(most, r).min(left)
        } else {
            0
        };
        left -= kw;
        kw
    };
    year.limit[intertie] = limit;
    year.outside[intertie] = split_off(r);
    for holder in 0..year.holders as usize {
        year.existing[intertie][holder] = split_off(r);
        year.pre_ra[intertie][holder] = split_off(r);
        year.new_use[intertie][holder] = split_off(r);
        year.placed[intertie][holder] = split_off(r);
        year.taken[intertie][holder] = split_off(r);
    }
    year.unassigned[intertie] = left;
}

/// Locks some of the placed kW of an intertie.
fn lock_some(year: &mut Year, intertie: usize, r: &mut Numbers) {
    let often = r.one_of(&[2, 6, 100]);
    for holder in 0..year.holders as usize {
        let placed = year.placed[intertie][holder];
        if placed > 0 && r.once_in(often) {
            year.locked[intertie][holder] = up_to(placed, r).max(1);
            year.lock_term[intertie][holder] = 1 + r.below(MAX_YEARS.into()) as u32;
        }
    }
}

/// The words of the holders: small ones that fit what is unassigned, or up to the most there may be.
fn holders_words(year: &mut Year, r: &mut Numbers) {
    let (interties, holders) = (year.interties as usize, year.holders as usize);
    let most_load = r.one_of(&[1, 3, 1_000, MAX_LOAD_SHARE]);
    let without_load = r.one_of(&[1, 2, 8, 100]);
    let unassigned: u32 = year.unassigned[..interties].iter().sum();
    let most_unplaced = r.one_of(&[unassigned, unassigned, 2 * unassigned, MAX_TOTAL_KW]);
    let most_unplaced = most_unplaced.min(MAX_TOTAL_KW) / holders as u32;
    let any_day = r.next() as u32;
    year.last_taking_day = r.one_of(&[0, 21, 360, any_day, u32::MAX]);
    for holder in 0..holders {
        if !r.once_in(without_load) {
            year.load_share[holder] = up_to(most_load, r);
        }
        year.unplaced[holder] = up_to(most_unplaced, r);
        year.sellers[holder] = (r.next() & r.next()) as u32 & (u32::MAX >> (32 - holders));
        year.step5_share[holder] = up_to(MAX_TOTAL_KW, r);
        year.step7_total[holder] = up_to(MAX_TOTAL_KW, r);
        year.reserved[holder] = up_to(r.one_of(&[1, 1_000, MAX_TOTAL_KW]), r);
        let (week, any_week) = (year.last_taking_day / 7, r.next() as u32);
        year.last_taking_week[holder] = r.one_of(&[week, week, 0, 3, any_week]);
        year.takings[holder] = up_to(MAX_TAKINGS, r);
    }
}

/// Pending kW within each holder's unplaced, mostly on a few interties.
fn ask(year: &mut Year, r: &mut Numbers) {
    let interties = year.interties as usize;
    let few = interties.min(1 + r.index(4));
    for holder in 0..year.holders as usize {
        let mut left = year.unplaced[holder];
        let requests = r.below(6);
        for _ in 0..requests {
            let among = if r.once_in(4) { interties } else { few };
            let intertie = r.index(among);
            let kw = up_to(left, r);
            year.pending[intertie][holder] += kw;
            left -= kw;
        }
    }
}
