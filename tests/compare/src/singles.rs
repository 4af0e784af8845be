//! Single calls: on words of a year under way or of any orderly year, as they are or with one or two of
//! them changed, on noise, and on too few or more words than needed.

use crate::calls::{any_call, both, Call};
use crate::faults::Change::{Behind, Granted, KwMore, NextRefusal, PassNotCounted, Refused};
use crate::lent::Lent;
use crate::library::Ours;
use crate::numbers::Numbers;
use crate::suites::Suite;
use crate::tally::{Floor, Tally};
use crate::{closings, layout, openings, sheets, years};
use independent::answer::Answer;
use independent::year::{Year, STATE_WORDS};

pub const SUITE: Suite = Suite {
    name: "single calls",
    seed: 4,
    cases: 50_000,
    floors: FLOORS,
    faults: &[
        ("state_refusal", NextRefusal),
        ("state_refusal", Refused("state")),
        ("trade", Refused("state")),
        ("request", Granted("state")),
        ("move", Refused("state")),
        ("lock", KwMore),
        ("take", Behind("state")),
        ("close", NextRefusal),
        ("close", PassNotCounted),
        ("close", Refused("state")),
        ("close", Refused("grants")),
    ],
    compare,
};

/// One call in so many is a closing.
const CLOSINGS: u64 = 3;

/// The sorts of single calls that a run has many of.
const FLOORS: &[Floor] = &[
    ("granted", 6_000),
    ("refused 5", 4_000),
    ("refused 6", 8_000),
    ("closings refused 5", 2_500),
    ("closings refused 6", 2_000),
    ("closings refused 7", 800),
    ("closings of stage 1", 800),
    ("closings of stage 2 that grant kW", 700),
    ("closings of stage 3 that grant kW", 600),
    ("closings with passes", 800),
    ("closings with 5 passes or more", 120),
    ("closings with 2 contended interties", 300),
    ("closings that weigh by sellers", 200),
    ("closings with claims of weight 0", 300),
];

/// Compares a single call, or says how the two differ.
fn compare(ours: &Ours, _: u64, r: &mut Numbers, tally: &mut Tally) -> Result<(), String> {
    let mut words = if r.once_in(2) {
        under_way(ours, r).map_err(|e| format!("before it: {e}"))?
    } else {
        let mut words = r.words(STATE_WORDS + 8);
        layout::write(&years::orderly(r), &mut words);
        words
    };
    damage(&mut words, r);
    let length = if r.once_in(12) {
        STATE_WORDS - 1 - r.index(3)
    } else {
        STATE_WORDS + r.index(9)
    };
    let mut year = layout::read(&words);
    let call = any_call(&year, CLOSINGS, r);
    let before = year.clone();
    let mut state = Lent::new(words, 0..length);
    let answer = both(ours, call, &mut state, &mut year, r)?;
    tally.count("granted", answer.refusal == 0);
    tally.count("refused 5", answer.refusal == 5);
    tally.count("refused 6", answer.refusal == 6);
    if let Call::Close(_) = call {
        count_closing(&before, answer, tally);
    }
    Ok(())
}

/// Counts the sorts that a closing is of, refused ones included.
fn count_closing(before: &Year, answer: Answer, tally: &mut Tally) {
    match answer.refusal {
        0 => closings::count(before, answer, tally),
        5 => tally.count("closings refused 5", true),
        6 => tally.count("closings refused 6", true),
        _ => tally.count("closings refused 7", true),
    }
}

/// The words of a year that was opened and has seen some calls of up to three stages, in the library.
fn under_way(ours: &Ours, r: &mut Numbers) -> Result<Vec<u32>, String> {
    let sheet = Lent::whole(sheets::standing(r).bytes());
    let mut state = Lent::new(r.words(STATE_WORDS + 8), 0..STATE_WORDS);
    let (mut year, _) = openings::open_both(ours, sheet, &mut state)?;
    let calls = r.below(40);
    for _ in 0..calls {
        let call = any_call(&year, 8, r);
        both(ours, call, &mut state, &mut year, r)?;
    }
    Ok(state.all().to_vec())
}

/// Changes words: none, one or two named ones by a little or to anything, or all of them to noise.
pub fn damage(words: &mut [u32], r: &mut Numbers) {
    if r.once_in(40) {
        words.iter_mut().for_each(|word| *word = r.next() as u32);
        return;
    }
    let Year {
        interties, holders, ..
    } = *layout::read(words);
    for _ in 0..r.one_of(&[0, 0, 1, 2]) {
        // Now and then the word just past those that the year's sizes name.
        let past = usize::from(r.once_in(6));
        let at = layout::any_place(interties as usize + past, holders as usize + past, r);
        words[at] = match r.below(5) {
            0 => words[at].wrapping_add(1),
            1 => words[at].wrapping_sub(1),
            2 => 0,
            3 => r.below(40) as u32,
            _ => r.next() as u32,
        };
    }
}
