//! Lists of calls: a sheet is opened and calls of all stages follow, closings and refused ones included,
//! each on the words as the one before left them.

use crate::calls::{any_call, both, Call};
use crate::faults::Change::{Behind, Granted, KwMore, NextRefusal, PassNotCounted, Refused};
use crate::lent::Lent;
use crate::library::Ours;
use crate::numbers::Numbers;
use crate::openings::open_both;
use crate::sheets::Draft;
use crate::suites::Suite;
use crate::tally::{Floor, Tally};
use crate::{closings, sheets};
use independent::answer::Answer;
use independent::year::{Year, OPEN, STATE_WORDS};

pub const SUITE: Suite = Suite {
    name: "lists of calls",
    seed: 3,
    cases: 3_000,
    floors: FLOORS,
    faults: &[
        ("state_refusal", NextRefusal),
        ("trade", KwMore),
        ("trade", Granted("state")),
        ("request", KwMore),
        ("request", Refused("state")),
        ("move", KwMore),
        ("move", Behind("state")),
        ("lock", KwMore),
        ("lock", NextRefusal),
        ("take", KwMore),
        ("take", Granted("state")),
        ("close", KwMore),
        ("close", PassNotCounted),
        ("close", Granted("state")),
        ("close", Granted("grants")),
        ("close", Refused("grants")),
        ("close", Behind("grants")),
    ],
    compare,
};

/// How many calls a list has.
const CALLS: u64 = 200;

/// One call of a list in so many is a closing.
const CLOSINGS: u64 = 24;

/// The sorts of lists and calls that a run has many of.
const FLOORS: &[Floor] = &[
    ("lists that reach stage 4", 2_500),
    ("trades granted", 20_000),
    ("requests granted", 30_000),
    ("moves granted", 20_000),
    ("locks granted", 5_000),
    ("takings granted", 6_000),
    ("refused 5", 3_000),
    ("refused 7", 30_000),
    ("refused 8", 30_000),
    ("refused 9", 30_000),
    ("refused 10", 30_000),
    ("refused 11", 10_000),
    ("refused 12", 10_000),
    ("refused 13", 10_000),
    ("closings of stage 1", 2_500),
    ("closings of stage 2 that grant kW", 1_500),
    ("closings of stage 3 that grant kW", 1_200),
    ("closings after 5 requests", 2_000),
    ("closings with passes", 1_500),
    ("closings with 5 passes or more", 150),
    ("closings with 2 contended interties", 400),
    ("closings that weigh by sellers", 400),
    ("closings with claims of weight 0", 80),
];

/// Compares a list, or says how the two differ.
fn compare(ours: &Ours, _: u64, r: &mut Numbers, tally: &mut Tally) -> Result<(), String> {
    let sheet = Lent::whole(any_sheet(r).bytes());
    let words = r.words(STATE_WORDS + 8);
    let mut state = Lent::new(words, 0..STATE_WORDS + r.index(9));
    let (mut year, _) = open_both(ours, sheet, &mut state)?;
    let mut requests = 0;
    for turn in 0..CALLS {
        let call = any_call(&year, CLOSINGS, r);
        let before = matches!(call, Call::Close(_)).then(|| year.clone());
        let answer =
            both(ours, call, &mut state, &mut year, r).map_err(|e| format!("call {turn}: {e}"))?;
        count(call, answer, tally);
        requests += u32::from(matches!(call, Call::Request(..)) && answer.refusal == 0);
        if let (Some(before), 0) = (before, answer.refusal) {
            closings::count(&before, answer, tally);
            tally.count("closings after 5 requests", requests >= 5);
            requests = 0;
        }
    }
    tally.count("lists that reach stage 4", year.stage == OPEN);
    Ok(())
}

/// A sheet that stands; of most lists, one that leaves a holder something to trade and to ask for.
pub fn any_sheet(r: &mut Numbers) -> Draft {
    let anything = r.once_in(8);
    loop {
        let sheet = sheets::standing(r);
        let mut year = Box::new(Year::blank());
        year.open(&sheet.bytes(), STATE_WORDS);
        if anything || year.unplaced.iter().any(|&kw| kw > 0) {
            return sheet;
        }
    }
}

/// Counts the sort that a call and its answer are of.
pub fn count(call: Call, answer: Answer, tally: &mut Tally) {
    let sort = match (call, answer.refusal) {
        (_, 5) => "refused 5",
        (_, 7) => "refused 7",
        (_, 8) => "refused 8",
        (_, 9) => "refused 9",
        (_, 10) => "refused 10",
        (_, 11) => "refused 11",
        (_, 12) => "refused 12",
        (_, 13) => "refused 13",
        (Call::Trade(..), 0) => "trades granted",
        (Call::Request(..), 0) => "requests granted",
        (Call::Move(..), 0) => "moves granted",
        (Call::Lock(..), 0) => "locks granted",
        (Call::Take(..), 0) => "takings granted",
        _ => return,
    };
    tally.count(sort, true);
}
