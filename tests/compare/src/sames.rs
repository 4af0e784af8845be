//! Same: the compiled library's verdict on two sheets, against the independent program. The second is the
//! first with changes, or another one; either may be damaged. Both are lent amid noise.

use crate::changes::{Change, KEPT, OTHER};
use crate::faults::Change::{Behind, Granted, KwMore, NextRefusal, OtherVerdict, Refused};
use crate::lent::Lent;
use crate::library::Ours;
use crate::numbers::Numbers;
use crate::sheets::Draft;
use crate::suites::Suite;
use crate::tally::{Floor, Tally};
use crate::{damages, sheets};
use independent::answer::Answer;
use independent::beside;

pub const SUITE: Suite = Suite {
    name: "sames",
    seed: 8,
    cases: 30_000,
    floors: FLOORS,
    faults: &[
        ("same", OtherVerdict),
        ("same", KwMore),
        ("same", NextRefusal),
        ("same", Granted("first")),
        ("same", Refused("second")),
        ("same", Behind("second")),
    ],
    compare,
};

/// The sorts of pairs that a run has many of.
const FLOORS: &[Floor] = &[
    ("yes", 10_000),
    ("no", 4_000),
    ("yes: one and the same bytes", 400),
    ("yes: another order", 2_000),
    ("yes: records split", 2_000),
    ("yes: records joined", 2_000),
    ("yes: other years", 2_000),
    ("yes: load shares of 0", 800),
    ("yes: other ranks in the same order", 2_000),
    ("yes: a kW more or less", 300),
    ("yes: a record left out", 400),
    ("yes: ranks exchanged", 500),
    ("no: a kW more or less", 300),
    ("no: a load share changed", 800),
    ("no: a record elsewhere", 300),
    ("no: a record left out", 300),
    ("no: ranks exchanged", 300),
    ("no: another size", 600),
    ("no: another sheet", 300),
    ("refused 1", 700),
    ("refused 2", 700),
    ("refused 3", 1_000),
    ("refused 4", 600),
    ("refused for the first alone", 1_000),
    ("refused for the second alone", 1_000),
    ("both refused, the second by a lower number", 400),
];

/// Two sheets.
struct Pair {
    first: Vec<u8>,
    second: Vec<u8>,
    /// Whether one sheet is lent as both.
    one: bool,
    /// The changes made that leave the year as it is.
    kept: Vec<&'static str>,
    /// The change made that mostly gives another year, or a damage.
    other: Option<&'static str>,
}

/// Compares a pair, or says how the two differ.
fn compare(ours: &Ours, _: u64, r: &mut Numbers, tally: &mut Tally) -> Result<(), String> {
    let pair = any_pair(r);
    let mut first = Lent::amid_noise(&pair.first, Numbers::bytes, r);
    let mut second = Lent::amid_noise(&pair.second, Numbers::bytes, r);
    let (first_before, second_before) = (first.clone(), second.clone());
    let verdict = ours.same(&mut first, (!pair.one).then_some(&mut second));
    let theirs = beside::same(&pair.first, &pair.second);
    let untouched = first.stays(&first_before) && second.stays(&second_before);
    let stays = pair.other.is_none();
    if verdict != theirs || !untouched || (stays && theirs != (Answer::granted(0, 0), true)) {
        return Err(format!(
            "{:?}, {:?}\n  library {verdict:?}\n  independent {theirs:?}\n  sheets untouched: {untouched}",
            pair.kept, pair.other
        ));
    }
    match theirs.0.refusal {
        0 => count_verdict(theirs.1, &pair, tally),
        refusal => count_refusal(refusal, &pair, tally),
    }
    Ok(())
}

/// Two sheets: the second is the first as it is, with changes that leave the year, or with one more that
/// mostly doesn't, or it is another; of one pair in five, one sheet or both are damaged.
fn any_pair(r: &mut Numbers) -> Pair {
    let draft = sheets::standing(r);
    let mut second = draft.clone();
    let one = r.once_in(40);
    let (mut kept, mut other) = (Vec::new(), None);
    if !one {
        let changes = r.below(5);
        kept.extend((0..changes).filter_map(|_| apply(&KEPT, &mut second, r)));
        if changes == 0 || r.once_in(3) {
            other = apply(&OTHER, &mut second, r);
        } else if r.once_in(20) {
            second = sheets::standing(r);
            other = Some("another sheet");
        }
    }
    let damage = if one { 0 } else { r.below(15) };
    let mut bytes = |draft: Draft, is_damaged: bool| {
        if is_damaged {
            other = Some("damaged");
            damages::damaged(draft, r)
        } else {
            draft.bytes()
        }
    };
    Pair {
        first: bytes(draft, [1, 2].contains(&damage)),
        second: bytes(second, [2, 3].contains(&damage)),
        one,
        kept,
        other,
    }
}

/// Makes one of the changes; answers its name if the sheet is another now.
fn apply(changes: &[Change], draft: &mut Draft, r: &mut Numbers) -> Option<&'static str> {
    let (name, change) = r.one_of(changes);
    let before = draft.clone();
    change(draft, r);
    (*draft != before).then_some(name)
}

/// Counts the sorts of a pair that stands: the verdict, and it with the changes.
fn count_verdict(yes: bool, pair: &Pair, tally: &mut Tally) {
    let verdict = if yes { "yes" } else { "no" };
    tally.count(verdict, true);
    tally.count("yes: one and the same bytes", pair.one);
    match pair.other {
        None => {
            for (name, _) in KEPT {
                tally.count(&format!("yes: {name}"), pair.kept.contains(&name));
            }
        }
        Some(other) => {
            let sort = format!("{verdict}: {other}");
            if FLOORS.iter().any(|floor| floor.0 == sort) {
                tally.count(&sort, true);
            }
        }
    }
}

/// Counts the sorts of a pair of which one sheet is refused, or both.
fn count_refusal(refusal: u32, pair: &Pair, tally: &mut Tally) {
    let sheets = [&pair.first, &pair.second];
    let [first, second] = sheets.map(|sheet| beside::same(sheet, sheet).0.refusal);
    tally.count(&format!("refused {refusal}"), true);
    tally.count("refused for the first alone", second == 0);
    tally.count("refused for the second alone", first == 0);
    tally.count(
        "both refused, the second by a lower number",
        0 < second && second < first,
    );
}
