//! Sheets: the number with which the compiled library refuses a sheet, against the independent program.

use crate::faults::Change::{Behind, Granted, NextRefusal, Refused};
use crate::lent::Lent;
use crate::library::Ours;
use crate::numbers::Numbers;
use crate::sheets;
use crate::suites::Suite;
use crate::tally::Tally;
use independent::sheet::Sheet;

pub const SUITE: Suite = Suite {
    name: "sheets",
    seed: 2,
    cases: 25_000,
    floors: &[],
    faults: &[
        ("sheet_refusal", NextRefusal),
        ("sheet_refusal", Granted("sheet")),
        ("sheet_refusal", Refused("sheet")),
        ("sheet_refusal", Behind("sheet")),
    ],
    compare,
};

/// Compares the refusal of a sheet, or says how the two differ.
fn compare(ours: &Ours, _: u64, r: &mut Numbers, _: &mut Tally) -> Result<(), String> {
    let sheet = sheets::any(r);
    let mut lent = Lent::amid_noise(&sheet, Numbers::bytes, r);
    let before = lent.clone();
    let refusal = ours.sheet_refusal(&mut lent);
    let theirs = Sheet::read(&sheet).err().unwrap_or(0);
    let untouched = lent.stays(&before);
    if refusal == theirs && untouched {
        return Ok(());
    }
    Err(format!(
        "{sheet:?}\n  library {refusal}, independent {theirs}, sheet untouched: {untouched}"
    ))
}
