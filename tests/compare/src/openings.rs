//! Openings: Steps 1 to 7 by the compiled library, against the independent program. The sheet is lent amid
//! noise, the state is lent full of noise; the answer, every word and every byte are compared.

use crate::faults::Change::{Behind, Granted, KwMore, NextRefusal, Refused};
use crate::lent::Lent;
use crate::library::Ours;
use crate::numbers::Numbers;
use crate::suites::Suite;
use crate::tally::{Floor, Tally};
use crate::{layout, sheets};
use independent::answer::Answer;
use independent::share_out::MAX_HOLDERS;
use independent::sheet::{
    Sheet, MAX_INTERTIES, MAX_RECORDS, NEW_USE_COMMITMENT, PRE_RA_COMMITMENT,
};
use independent::year::{PerPair, Year, MAX_TOTAL_KW, STATE_WORDS};

pub const SUITE: Suite = Suite {
    name: "openings",
    seed: 5,
    cases: 40_000,
    floors: FLOORS,
    faults: &[
        ("open", KwMore),
        ("open", NextRefusal),
        ("open", Granted("state")),
        ("open", Refused("state")),
        ("open", Behind("state")),
        ("open", Granted("sheet")),
        ("open", Refused("sheet")),
    ],
    compare,
};

/// The sorts of openings that a run has many of.
const FLOORS: &[Floor] = &[
    ("opened", 12_000),
    ("refused 1", 3_000),
    ("refused 2", 2_000),
    ("refused 3", 4_000),
    ("refused 4", 2_000),
    ("refused 5", 3_000),
    ("48 interties and 32 holders", 1_500),
    ("1,024 records", 2_000),
    ("T of 960,000,000", 200),
    ("kW of a pair past 32 bits", 800),
    ("P above 0 and cut", 5_000),
    ("New Use covered by E", 5_000),
    ("N above 0 and cut to the allowance", 5_000),
    ("N above 0 and cut by the share-out", 5_000),
    ("a holder with a load share excluded", 3_000),
    ("excluded in a second round or later", 1_500),
];

/// Opens a sheet in both, into the first words of 16,000 or more. Answers the year and the answer, or says how the two
/// differ. The state is as the library left it.
pub fn open_both(
    ours: &Ours,
    mut sheet: Lent<u8>,
    state: &mut Lent<u32>,
) -> Result<(Box<Year>, Answer), String> {
    let sheet_before = sheet.clone();
    let mut year = layout::read(state.all());
    let mut expected = state.clone();
    let theirs = year.open(sheet.lent(), state.lent().len());
    if theirs.refusal == 0 {
        layout::write(&year, expected.lent_mut());
    }
    let answer = ours.open(&mut sheet, state);
    let untouched = sheet.stays(&sheet_before);
    if answer == theirs && *state == expected && untouched {
        return Ok((year, theirs));
    }
    Err(format!(
        "sheet {} opened into {} words\n  library {answer:?}\n  independent {theirs:?}\n  sheet untouched: {untouched}\n  {}",
        header(sheet_before.lent()),
        state.lent().len(),
        layout::differences(state.all(), expected.all(), layout::name)
    ))
}

/// Compares an opening, or says how the two differ.
fn compare(ours: &Ours, _: u64, r: &mut Numbers, tally: &mut Tally) -> Result<(), String> {
    let sheet = sheets::any(r);
    let lent = Lent::amid_noise(&sheet, Numbers::bytes, r);
    let length = length(r);
    let mut state = Lent::new(r.words(length.max(STATE_WORDS) + 8), 0..length);
    let (year, answer) = open_both(ours, lent, &mut state)?;
    match answer.refusal {
        0 => count_opened(&sheet, &year, answer.kw, tally),
        refusal => tally.count(&format!("refused {refusal}"), true),
    }
    Ok(())
}

/// The words of a lent state: mostly enough, else one too few, none or fewer.
fn length(r: &mut Numbers) -> usize {
    match r.below(16) {
        0 | 1 => STATE_WORDS - 1,
        2 => r.one_of(&[0, 0, 1, 48, 12_912, 14_448]),
        3 => r.index(STATE_WORDS),
        4..=9 => STATE_WORDS,
        10..=14 => STATE_WORDS + 1 + r.index(8),
        _ => STATE_WORDS + r.index(4_000),
    }
}

/// What a failure's message says of a sheet: its length, and I, H and K where it has them.
fn header(sheet: &[u8]) -> String {
    let words: Vec<u32> = sheet
        .chunks_exact(4)
        .take(3)
        .map(|word| u32::from_le_bytes([word[0], word[1], word[2], word[3]]))
        .collect();
    format!("of {} bytes with I, H, K {words:?}", sheet.len())
}

/// kW of the sheet's records, as `kw[intertie][holder]`.
type AskedKw = [[u64; MAX_HOLDERS]; MAX_INTERTIES];

/// Counts the sorts that an opened sheet is of. What the steps cut follows from the sheet's records and
/// from E, P and N.
fn count_opened(sheet: &[u8], year: &Year, total_kw: u64, tally: &mut Tally) {
    let sheet = Sheet::read(sheet).expect("an opened sheet");
    let full_size = (sheet.interties, sheet.holders) == (MAX_INTERTIES, MAX_HOLDERS);
    tally.count("opened", true);
    tally.count("48 interties and 32 holders", full_size);
    tally.count("1,024 records", sheet.records().count() == MAX_RECORDS);
    tally.count("T of 960,000,000", total_kw == u64::from(MAX_TOTAL_KW));

    let pre_ra = asked(&sheet, PRE_RA_COMMITMENT);
    let new_use = asked(&sheet, NEW_USE_COMMITMENT);
    let past_32_bits = |asked: &AskedKw| asked.iter().flatten().any(|&kw| kw >> 32 > 0);
    tally.count(
        "kW of a pair past 32 bits",
        past_32_bits(&pre_ra) || past_32_bits(&new_use),
    );
    tally.count("P above 0 and cut", cuts_pre_ra(year, &pre_ra));
    let [covers, cuts_to_allowance, cuts_by_share_out] =
        new_use_sorts(year, &pre_ra, &new_use, total_kw);
    tally.count("New Use covered by E", covers);
    tally.count("N above 0 and cut to the allowance", cuts_to_allowance);
    tally.count("N above 0 and cut by the share-out", cuts_by_share_out);
    let rounds = rounds_that_exclude(year, total_kw);
    tally.count("a holder with a load share excluded", rounds > 0);
    tally.count("excluded in a second round or later", rounds > 1);
}

/// The kW of a kind's records for each pair.
fn asked(sheet: &Sheet, kind: u32) -> AskedKw {
    let mut asked = [[0; MAX_HOLDERS]; MAX_INTERTIES];
    for record in sheet.records().filter(|record| record.key.kind == kind) {
        asked[record.key.intertie as usize][record.key.holder as usize] +=
            u64::from(record.quantity);
    }
    asked
}

/// Whether Step 4a gives something on an intertie, and less than is claimed there.
fn cuts_pre_ra(year: &Year, pre_ra: &AskedKw) -> bool {
    (0..year.interties as usize).any(|intertie| {
        let existing = &year.existing[intertie][..year.holders as usize];
        let asked_and_existing = pre_ra[intertie].iter().zip(existing);
        let claims = asked_and_existing.map(|(kw, &existing)| kw.saturating_sub(existing.into()));
        let given = sum(&year.pre_ra[intertie][..year.holders as usize]);
        0 < given && given < claims.sum()
    })
}

/// Whether Step 4b covers a commitment by E, whether it cuts a holder's commitments to the allowance, and
/// whether its share-outs give a holder less than stayed; of the last two, where the holder has some N.
fn new_use_sorts(year: &Year, pre_ra: &AskedKw, new_use: &AskedKw, total_kw: u64) -> [bool; 3] {
    let (interties, holders) = (year.interties as usize, year.holders as usize);
    let loads = sum(&year.load_share[..holders]);
    let mut sorts = [false; 3];
    for holder in 0..holders {
        let all = |pairs: &PerPair| {
            sum(pairs[..interties]
                .iter()
                .map(|of_holders| &of_holders[holder]))
        };
        let mut uncovered = 0;
        for intertie in 0..interties {
            let (existing, asked) = (year.existing[intertie][holder], new_use[intertie][holder]);
            let covered = asked.min(u64::from(existing).saturating_sub(pre_ra[intertie][holder]));
            sorts[0] |= covered > 0;
            uncovered += asked - covered;
        }
        let quantity = (total_kw * u64::from(year.load_share[holder])) / loads.max(1);
        let allowance = quantity.saturating_sub(all(&year.existing) + all(&year.pre_ra));
        let given = all(&year.new_use);
        sorts[1] |= 0 < given && allowance < uncovered;
        sorts[2] |= 0 < given && given < allowance.min(uncovered);
    }
    sorts
}

/// How many rounds of Step 5 exclude a holder with a load share; 0 where none stays eligible.
fn rounds_that_exclude(year: &Year, total_kw: u64) -> u32 {
    let mut eligible: Vec<(u64, u64)> = (0..year.holders as usize)
        .map(|holder| (year.reserved[holder].into(), year.load_share[holder].into()))
        .collect();
    let (mut left_kw, mut rounds) = (total_kw, 0);
    loop {
        let loads: u64 = eligible.iter().map(|holder| holder.1).sum();
        let (excluded, others): (Vec<_>, Vec<_>) = eligible
            .into_iter()
            .partition(|(held, load)| held * loads >= left_kw * load);
        if excluded.is_empty() || others.is_empty() {
            return if others.is_empty() { 0 } else { rounds };
        }
        left_kw -= excluded.iter().map(|holder| holder.0).sum::<u64>();
        rounds += u32::from(excluded.iter().any(|holder| holder.1 > 0));
        eligible = others;
    }
}

fn sum<'a>(words: impl IntoIterator<Item = &'a u32>) -> u64 {
    words.into_iter().map(|&word| u64::from(word)).sum()
}
