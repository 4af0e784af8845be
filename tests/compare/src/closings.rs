//! The sorts of granted closings that the suites of calls count.

use crate::calls::pending_on;
use crate::tally::Tally;
use independent::answer::Answer;
use independent::year::{Year, FIRST_REQUESTS, TRADING};

/// Counts the sorts that a granted closing is of, from the year before it and the answer.
pub fn count(year: &Year, answer: Answer, tally: &mut Tally) {
    let stage = match year.stage {
        TRADING => return tally.count("closings of stage 1", true),
        FIRST_REQUESTS => "closings of stage 2 that grant kW",
        _ => "closings of stage 3 that grant kW",
    };
    let contended = contended_interties(year);
    let (from_sellers, none) = served_without_load(year, &contended);
    tally.count(stage, answer.kw > 0);
    tally.count("closings with passes", answer.passes > 0);
    tally.count("closings with 5 passes or more", answer.passes >= 5);
    tally.count("closings with 2 contended interties", contended.len() >= 2);
    tally.count("closings that weigh by sellers", from_sellers);
    tally.count("closings with claims of weight 0", none);
}

/// The interties with some unassigned kW, and more pending than that.
fn contended_interties(year: &Year) -> Vec<usize> {
    let is_contended = |&intertie: &usize| {
        let unassigned = u64::from(year.unassigned[intertie]);
        0 < unassigned && unassigned < pending_on(year, intertie)
    };
    (0..year.interties as usize).filter(is_contended).collect()
}

/// Whether a holder without a load share has kW pending on one of the interties, with a weight from its
/// sellers, and with a weight of 0.
fn served_without_load(year: &Year, interties: &[usize]) -> (bool, bool) {
    let asks = |&holder: &usize| {
        let pending = |&intertie: &usize| year.pending[intertie][holder] > 0;
        year.load_share[holder] == 0 && interties.iter().any(pending)
    };
    let (with, without): (Vec<usize>, Vec<usize>) = (0..year.holders as usize)
        .filter(asks)
        .partition(|&holder| average_load(year, holder) > 0);
    (!with.is_empty(), !without.is_empty())
}

/// The sellers' average load share, 0 without sellers.
fn average_load(year: &Year, holder: usize) -> u64 {
    let sellers: Vec<u64> = (0..year.holders as usize)
        .filter(|seller| year.sellers[holder] >> seller & 1 == 1)
        .map(|seller| u64::from(year.load_share[seller]))
        .collect();
    sellers.iter().sum::<u64>() / sellers.len().max(1) as u64
}
