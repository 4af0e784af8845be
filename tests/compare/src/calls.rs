//! A call of the year, made on both: the compiled library works on lent words, the independent program on
//! the year that they are. The answer, every word of the state and every word of the grants are compared.

use crate::layout;
use crate::lent::Lent;
use crate::library::Ours;
use crate::numbers::Numbers;
use independent::answer::Answer;
use independent::year::{Year, GRANT_WORDS, STATE_WORDS};

/// A call with its numbers; of a closing, the words of its grants buffer.
#[derive(Clone, Copy, Debug)]
pub enum Call {
    Trade(u32, u32, u64),
    Request(u32, u32, u64),
    Move(u32, u32, u32, u64),
    Lock(u32, u32, u64, u32),
    Take(u32, u32, u64, u32),
    Close(usize),
}

/// A call without its numbers.
#[derive(Clone, Copy)]
enum Kind {
    Trade,
    Request,
    Move,
    Lock,
    Take,
}

const KINDS: [Kind; 5] = [
    Kind::Trade,
    Kind::Request,
    Kind::Move,
    Kind::Lock,
    Kind::Take,
];

/// A call that is mostly of the year's stage and whose numbers mostly fit, and sometimes are anything.
/// One in `closings` is a closing.
pub fn any_call(year: &Year, closings: u64, r: &mut Numbers) -> Call {
    if r.once_in(closings) {
        return Call::Close(grants_length(r));
    }
    let kinds: &[Kind] = match year.stage {
        1 => &[Kind::Trade],
        2 => &[Kind::Request],
        3 => &[Kind::Request, Kind::Request, Kind::Move],
        _ => &[Kind::Move, Kind::Lock, Kind::Take],
    };
    let kind = if r.once_in(6) {
        r.one_of(&KINDS)
    } else {
        r.one_of(kinds)
    };
    let (holder, intertie) = pair(year, kind, r);
    let kw = kw_near(limit_of(year, kind, holder, intertie), r);
    match kind {
        Kind::Trade => Call::Trade(holder, buyer(year, r), kw),
        Kind::Request => Call::Request(holder, intertie, kw),
        Kind::Move => Call::Move(holder, index_near(year.holders, r), intertie, kw),
        Kind::Lock => Call::Lock(holder, intertie, kw, term(r)),
        Kind::Take => Call::Take(holder, intertie, kw, day(year, r)),
    }
}

/// The words of a grants buffer: mostly enough, else one too few, none or fewer.
fn grants_length(r: &mut Numbers) -> usize {
    match r.below(16) {
        0 | 1 => GRANT_WORDS - 1,
        2 => 0,
        3 => r.index(GRANT_WORDS),
        4..=9 => GRANT_WORDS,
        _ => GRANT_WORDS + 1 + r.index(64),
    }
}

/// A holder and an intertie, mostly such that the call can be granted: a holder with kW left to sell or to
/// ask for, an intertie where much is asked for or little is left, a pair with placed kW.
fn pair(year: &Year, kind: Kind, r: &mut Numbers) -> (u32, u32) {
    let any = (index_near(year.holders, r), index_near(year.interties, r));
    let fitting = match kind {
        _ if r.once_in(4) => None,
        Kind::Trade | Kind::Request => holder_with(year, r, |holder| left_to_ask(year, holder) > 0)
            .map(|holder| (holder, sought(year, r).unwrap_or(any.1))),
        Kind::Move | Kind::Lock => placed_pair(year, r),
        Kind::Take => None,
    };
    fitting.unwrap_or(any)
}

/// A buyer: any holder, half of the time one without a load share, if there is one.
fn buyer(year: &Year, r: &mut Numbers) -> u32 {
    let any = index_near(year.holders, r);
    if r.once_in(2) {
        return any;
    }
    holder_with(year, r, |holder| year.load_share[holder] == 0).unwrap_or(any)
}

/// A holder for which `fits` holds, if there is one.
fn holder_with(year: &Year, r: &mut Numbers, fits: impl Fn(usize) -> bool) -> Option<u32> {
    let holders: Vec<u32> = (0..year.holders.min(32))
        .filter(|&holder| fits(holder as usize))
        .collect();
    (!holders.is_empty()).then(|| r.one_of(&holders))
}

/// The intertie where most is pending, or the one with the least unassigned; none in a third of the cases.
fn sought(year: &Year, r: &mut Numbers) -> Option<u32> {
    let interties = 0..year.interties.min(48);
    match r.below(3) {
        0 => interties.max_by_key(|&intertie| pending_on(year, intertie as usize)),
        1 => interties
            .filter(|&intertie| year.unassigned[intertie as usize] > 0)
            .min_by_key(|&intertie| year.unassigned[intertie as usize]),
        _ => None,
    }
}

/// All that is pending on an intertie.
pub fn pending_on(year: &Year, intertie: usize) -> u64 {
    let holders = year.holders.min(32) as usize;
    let pending = &year.pending[intertie][..holders];
    pending.iter().map(|&kw| u64::from(kw)).sum()
}

/// What a holder may still ask for: its unplaced less all it has pending.
fn left_to_ask(year: &Year, holder: usize) -> u64 {
    let pending = &year.pending[..year.interties.min(48) as usize];
    let asked: u64 = pending.iter().map(|kw| u64::from(kw[holder])).sum();
    u64::from(year.unplaced[holder]).saturating_sub(asked)
}

/// A holder and an intertie with placed kW, if there is one.
fn placed_pair(year: &Year, r: &mut Numbers) -> Option<(u32, u32)> {
    let pairs: Vec<(u32, u32)> = (0..year.holders.min(32))
        .flat_map(|holder| (0..year.interties.min(48)).map(move |intertie| (holder, intertie)))
        .filter(|&(holder, intertie)| year.placed[intertie as usize][holder as usize] > 0)
        .collect();
    (!pairs.is_empty()).then(|| r.one_of(&pairs))
}

/// An index below `count`, now and then at it or beyond.
fn index_near(count: u32, r: &mut Numbers) -> u32 {
    match r.below(40) {
        0 => count,
        1 => r.next() as u32,
        _ => r.below(u64::from(count.max(1))) as u32,
    }
}

/// The amount that the kW of a call are held to.
fn limit_of(year: &Year, kind: Kind, holder: u32, intertie: u32) -> u64 {
    let (holder, intertie) = ((holder % 32) as usize, (intertie % 48) as usize);
    let (placed, locked) = (year.placed[intertie][holder], year.locked[intertie][holder]);
    match kind {
        Kind::Trade => u64::from(year.unplaced[holder]),
        Kind::Request => left_to_ask(year, holder),
        Kind::Move => u64::from(placed.saturating_sub(locked)),
        Kind::Lock => u64::from(placed),
        Kind::Take => u64::from(year.unassigned[intertie]),
    }
}

/// Kilowatts around an amount, or any number.
fn kw_near(amount: u64, r: &mut Numbers) -> u64 {
    match r.below(12) {
        0 | 1 => amount,
        2 => amount + 1,
        3 => r.one_of(&[
            0,
            1,
            20_000_000,
            20_000_001,
            u64::from(u32::MAX) + 7,
            u64::MAX,
        ]),
        4 | 5 => 1 + r.below(amount + 1),
        _ => 1 + r.below(amount / 4 + 1),
    }
}

/// The years of a lock.
fn term(r: &mut Numbers) -> u32 {
    if r.once_in(4) {
        r.one_of(&[0, 31, u32::MAX])
    } else {
        1 + r.below(30) as u32
    }
}

/// A day around the last taking's, or any.
fn day(year: &Year, r: &mut Numbers) -> u32 {
    if r.once_in(20) {
        return r.next() as u32;
    }
    let later = r.below(9) as u32;
    year.last_taking_day.wrapping_add(later).wrapping_sub(2)
}

impl Ours<'_> {
    /// The call on the library's state.
    fn make(&self, call: Call, state: &mut Lent<u32>, grants: &mut Lent<u32>) -> Answer {
        match call {
            Call::Trade(seller, buyer, kw) => self.trade(state, seller, buyer, kw),
            Call::Request(holder, intertie, kw) => self.request(state, holder, intertie, kw),
            Call::Move(giver, taker, intertie, kw) => {
                self.move_kw(state, giver, taker, intertie, kw)
            }
            Call::Lock(holder, intertie, kw, term) => self.lock(state, holder, intertie, kw, term),
            Call::Take(holder, intertie, kw, day) => self.take(state, holder, intertie, kw, day),
            Call::Close(_) => self.close(state, grants),
        }
    }
}

/// The call on the independent program's year.
pub fn theirs(call: Call, year: &mut Year, words: usize, grants: &mut [u32]) -> Answer {
    match call {
        Call::Trade(seller, buyer, kw) => year.trade(words, seller, buyer, kw),
        Call::Request(holder, intertie, kw) => year.request(words, holder, intertie, kw),
        Call::Move(giver, taker, intertie, kw) => year.move_kw(words, giver, taker, intertie, kw),
        Call::Lock(holder, intertie, kw, term) => year.lock(words, holder, intertie, kw, term),
        Call::Take(holder, intertie, kw, day) => year.take(words, holder, intertie, kw, day),
        Call::Close(length) => year.close(words, &mut grants[..length]),
    }
}

/// Makes a call on both, with noise in the grants. Answers what both answer, or says how they differ. The state and the
/// year go on as the call left them.
pub fn both(
    ours: &Ours,
    call: Call,
    state: &mut Lent<u32>,
    year: &mut Year,
    r: &mut Numbers,
) -> Result<Answer, String> {
    let words = state.lent().len();
    let refusal = match (words < STATE_WORDS, year.is_orderly()) {
        (true, _) => 5,
        (false, false) => 6,
        (false, true) => 0,
    };
    let mut expected = state.clone();
    let our_refusal = ours.state_refusal(state);
    let mut grants = match call {
        Call::Close(length) => Lent::new(r.words(length + 8), 0..length),
        _ => Lent::whole(Vec::new()),
    };
    let mut expected_grants = grants.clone();
    let their_answer = theirs(call, year, words, expected_grants.lent_mut());
    if their_answer.refusal == 0 {
        layout::write(year, expected.lent_mut());
    }
    let our_answer = ours.make(call, state, &mut grants);
    if our_refusal == refusal
        && our_answer == their_answer
        && *state == expected
        && grants == expected_grants
    {
        return Ok(our_answer);
    }
    Err(format!(
        "{call:?} on {words} words\n  library {our_refusal} {our_answer:?}\n  independent {refusal} {their_answer:?}\n  state: {}\n  grants: {}",
        layout::differences(state.all(), expected.all(), layout::name),
        layout::differences(grants.all(), expected_grants.all(), |at| grant_name(year, at))
    ))
}

/// What the word at a place of the grants is.
fn grant_name(year: &Year, at: usize) -> String {
    let (interties, holders) = (year.interties.max(1) as usize, year.holders as usize);
    if at / interties < holders {
        format!(
            "of holder {} on intertie {}",
            at / interties,
            at % interties
        )
    } else {
        "no pair's".to_string()
    }
}
