//! Carry: next year's sheet by the compiled library, against the independent program. The sheet and the
//! output are lent amid noise, and the output is noise itself; every byte and every word is compared. Both
//! then open the sheet that was written.

use crate::carry_inputs::{self, locks_of_holders, stays, Inputs};
use crate::faults::Change::{Behind, Granted, KwMore, NextRefusal, Refused};
use crate::layout;
use crate::lent::Lent;
use crate::library::Ours;
use crate::numbers::Numbers;
use crate::openings::open_both;
use crate::suites::Suite;
use crate::tally::{Floor, Tally};
use independent::answer::Answer;
use independent::beside;
use independent::share_out::MAX_HOLDERS;
use independent::sheet::{
    Record, Sheet, EXISTING_CONTRACT, HEADER_BYTES, MAX_INTERTIES, MAX_RANK, MAX_RECORDS,
    MAX_YEARS, NEW_USE_COMMITMENT, PRE_RA_COMMITMENT, RECORD_BYTES,
};
use independent::year::{Year, STATE_WORDS};

pub const SUITE: Suite = Suite {
    name: "carries",
    seed: 9,
    cases: 16_000,
    floors: FLOORS,
    faults: &[
        ("carry", KwMore),
        ("carry", NextRefusal),
        ("carry", Granted("output")),
        ("carry", Refused("output")),
        ("carry", Behind("output")),
        ("carry", Granted("sheet")),
        ("carry", Refused("state")),
        ("open", KwMore),
        ("sheet_refusal", NextRefusal),
    ],
    compare,
};

/// The bytes before the output and behind it, which have to stay.
const AROUND: usize = 8;

/// The sorts of carries that a run has many of.
const FLOORS: &[Floor] = &[
    ("granted", 4_000),
    ("granted after a list of calls", 1_500),
    ("of those, with two locks of a holder", 500),
    ("granted without locks", 500),
    ("granted with two locks of a holder", 1_500),
    ("granted with locks of a holder above kept ranks", 1_000),
    ("granted with 100 locks", 50),
    ("granted with kinds 4, 5 and 6 kept and ended", 300),
    ("granted with years 1, 2 and 30", 1_000),
    ("granted with all commitments ended", 200),
    ("granted with 48 interties and 32 holders", 200),
    ("granted with 1,024 records, locks among them", 200),
    ("granted with a lock of rank 255", 200),
    ("granted into just as many bytes", 1_500),
    ("granted into more bytes", 1_500),
    ("refused 1", 200),
    ("refused 2", 200),
    ("refused 3", 200),
    ("refused 4", 200),
    ("refused 5", 200),
    ("refused 6", 200),
    ("refused 7", 200),
    ("refused 14", 2_000),
    ("refused 14 for sizes alone", 200),
    ("of those, for the interties alone", 60),
    ("of those, for the holders alone", 60),
    ("refused 14 for the records alone", 200),
    ("of those, for 1,025 records", 100),
    ("of those, with 1,536 locks", 20),
    ("refused 14 for a rank alone", 200),
    ("of those, for rank 256", 100),
    ("refused 14 for the output alone", 200),
    ("of those, for a byte", 60),
    ("of those, for an output of no bytes", 20),
];

/// Compares a carry, or says how the two differ.
fn compare(ours: &Ours, _: u64, r: &mut Numbers, tally: &mut Tally) -> Result<(), String> {
    let inputs = carry_inputs::any(r);
    let Inputs {
        sheet, lent, room, ..
    } = &inputs;
    let year = layout::read(&inputs.words);
    let mut our_sheet = Lent::amid_noise(sheet, Numbers::bytes, r);
    let mut state = Lent::new(inputs.words.clone(), 0..*lent);
    let (sheet_before, state_before) = (our_sheet.clone(), state.clone());
    let mut output = Lent::new(r.bytes(AROUND + room + AROUND), AROUND..AROUND + room);
    let mut expected = output.clone();

    let theirs = beside::carry(sheet, &year, *lent, expected.lent_mut());
    let answer = ours.carry(&mut our_sheet, &mut state, &mut output);
    let untouched = [our_sheet.stays(&sheet_before), state.stays(&state_before)];
    if answer != theirs || output != expected || untouched != [true, true] {
        return Err(format!(
            "sheet of {} bytes, {lent} words, output of {room} bytes\n  library {answer:?}\n  independent {theirs:?}\n  sheet and state untouched: {untouched:?}\n  output: {}",
            sheet.len(),
            layout::differences(output.all(), expected.all(), name)
        ));
    }
    let next = match Sheet::read(sheet) {
        Ok(sheet) => Next::of(&sheet, &year),
        Err(_) => {
            tally.count(&format!("refused {}", theirs.refusal), true);
            return Ok(());
        }
    };
    if theirs.refusal == 0 {
        let written = Lent::whole(output.lent()[..next.bytes()].to_vec());
        open_next(ours, written, r).map_err(|e| format!("next year: {e}"))?;
        count_granted(&inputs, &year, &next, tally);
    } else {
        count_refused(theirs, &inputs, &year, &next, tally);
    }
    Ok(())
}

/// Opens next year's sheet in both. It never is refused: what it has of the old sheet stood there, and a
/// lock stands as a commitment of its own rank.
fn open_next(ours: &Ours, mut sheet: Lent<u8>, r: &mut Numbers) -> Result<(), String> {
    let mut state = Lent::whole(r.words(STATE_WORDS));
    let refusal = ours.sheet_refusal(&mut sheet);
    let (_, answer) = open_both(ours, sheet, &mut state)?;
    if (answer.refusal, refusal) == (0, 0) {
        return Ok(());
    }
    Err(format!(
        "the sheet is refused\n  library {refusal}\n  opening {answer:?}"
    ))
}

/// What the byte at a place of the output is.
fn name(at: usize) -> String {
    match at.checked_sub(AROUND) {
        Some(at) if at < HEADER_BYTES => format!("byte {} of word {}", at % 4, at / 4),
        Some(at) => format!("byte {} of word {} of the records", at % 4, at / 4 - 3),
        None => "not lent".to_string(),
    }
}

/// What a carry makes of a sheet, whether next year's fits or not.
struct Next {
    interties: u32,
    holders: u32,
    /// The old sheet's records.
    old: Vec<Record>,
    /// The highest rank that each holder keeps, and its locks.
    ranks: Vec<(u32, u32)>,
}

impl Next {
    fn of(sheet: &Sheet, year: &Year) -> Next {
        let old: Vec<Record> = sheet.records().collect();
        let mut ranks = [0; MAX_HOLDERS];
        for record in old.iter().filter(|record| stays(record)) {
            let rank = &mut ranks[record.key.holder as usize];
            *rank = record.key.rank.max(*rank);
        }
        Next {
            interties: sheet.interties as u32,
            holders: sheet.holders as u32,
            old,
            ranks: ranks.into_iter().zip(locks_of_holders(year)).collect(),
        }
    }

    fn locks(&self) -> usize {
        self.ranks.iter().map(|&(_, locks)| locks as usize).sum()
    }

    fn records(&self) -> usize {
        self.old.iter().filter(|record| stays(record)).count() + self.locks()
    }

    fn bytes(&self) -> usize {
        HEADER_BYTES + RECORD_BYTES * self.records()
    }

    /// The highest rank that a lock gets, 0 if there is none.
    fn highest(&self) -> u32 {
        let of_locks = self.ranks.iter().filter(|(_, locks)| *locks > 0);
        of_locks
            .map(|(rank, locks)| rank + locks)
            .max()
            .unwrap_or(0)
    }
}

/// Counts the sorts that a granted carry is of.
fn count_granted(inputs: &Inputs, year: &Year, next: &Next, tally: &mut Tally) {
    let (old, room) = (&next.old, inputs.room);
    let has = |kind: u32, ends: bool| {
        let mut records = old.iter();
        records.any(|record| record.key.kind == kind && stays(record) != ends)
    };
    let has_years = |years: u32| old.iter().any(|it| it.key.years == years);
    let kinds = [EXISTING_CONTRACT, PRE_RA_COMMITMENT, NEW_USE_COMMITMENT];
    let full_size = (year.interties, year.holders) == (MAX_INTERTIES as u32, MAX_HOLDERS as u32);
    tally.count("granted", true);
    tally.count("granted after a list of calls", inputs.called);
    tally.count("granted without locks", next.locks() == 0);
    let two_locks = next.ranks.iter().any(|&(_, locks)| locks > 1);
    tally.count("granted with two locks of a holder", two_locks);
    tally.count(
        "of those, with two locks of a holder",
        inputs.called && two_locks,
    );
    tally.count(
        "granted with locks of a holder above kept ranks",
        next.ranks
            .iter()
            .any(|&(rank, locks)| rank > 0 && locks > 1),
    );
    tally.count("granted with 100 locks", next.locks() >= 100);
    tally.count(
        "granted with kinds 4, 5 and 6 kept and ended",
        kinds
            .iter()
            .all(|&kind| has(kind, true) && has(kind, false)),
    );
    tally.count(
        "granted with years 1, 2 and 30",
        [1, 2, MAX_YEARS].into_iter().all(has_years),
    );
    tally.count(
        "granted with all commitments ended",
        has_years(1) && kinds.iter().all(|&kind| !has(kind, false)),
    );
    tally.count("granted with 48 interties and 32 holders", full_size);
    tally.count(
        "granted with 1,024 records, locks among them",
        next.records() == MAX_RECORDS && next.locks() > 0,
    );
    tally.count(
        "granted with a lock of rank 255",
        next.highest() == MAX_RANK,
    );
    tally.count("granted into just as many bytes", room == next.bytes());
    tally.count("granted into more bytes", room > next.bytes());
}

/// Counts the sorts that a refused carry is of; of refusal 14, by its four conditions.
fn count_refused(answer: Answer, inputs: &Inputs, year: &Year, next: &Next, tally: &mut Tally) {
    tally.count(&format!("refused {}", answer.refusal), true);
    if answer.refusal != 14 {
        return;
    }
    let interties = next.interties != year.interties;
    let holders = next.holders != year.holders;
    let conditions = [
        interties || holders,
        next.records() > MAX_RECORDS,
        next.highest() > MAX_RANK,
        inputs.room < next.bytes(),
    ];
    let [sizes, records, rank, output] =
        [0, 1, 2, 3].map(|alone| (0..4).all(|at| conditions[at] == (at == alone)));
    tally.count("refused 14 for sizes alone", sizes);
    tally.count("of those, for the interties alone", sizes && !holders);
    tally.count("of those, for the holders alone", sizes && !interties);
    tally.count("refused 14 for the records alone", records);
    let one_more = next.records() == MAX_RECORDS + 1;
    tally.count("of those, for 1,025 records", records && one_more);
    let all_locked = next.locks() == MAX_INTERTIES * MAX_HOLDERS;
    tally.count("of those, with 1,536 locks", records && all_locked);
    tally.count("refused 14 for a rank alone", rank);
    tally.count(
        "of those, for rank 256",
        rank && next.highest() == MAX_RANK + 1,
    );
    tally.count("refused 14 for the output alone", output);
    let one_short = inputs.room + 1 == next.bytes();
    tally.count("of those, for a byte", output && one_short);
    tally.count(
        "of those, for an output of no bytes",
        output && inputs.room == 0,
    );
}
