//! What a carry is lent: an old sheet, a state and the room of the output. Most fit each other; the others
//! are damaged, of another size or stage, too short, or near the limits of a sheet.

use crate::calls::{any_call, theirs, Call};
use crate::numbers::Numbers;
use crate::sheets::Draft;
use crate::{damages, layout, lists, sheets, singles, years};
use independent::share_out::MAX_HOLDERS;
use independent::sheet::{
    Key, Record, HEADER_BYTES, MAX_INTERTIES, MAX_KW, MAX_RANK, MAX_RECORDS, MAX_YEARS,
    NEW_USE_COMMITMENT, PRE_RA_COMMITMENT, RECORD_BYTES,
};
use independent::year::{Year, GRANT_WORDS, OPEN, STATE_WORDS, TRADING};

/// The words behind the lent state, which have to stay.
const BEHIND: usize = 8;

/// Closings of a list, which are made apart.
const NO_CLOSINGS: u64 = u64::MAX;

/// What a carry is lent.
pub struct Inputs {
    pub sheet: Vec<u8>,
    pub words: Vec<u32>,
    /// How many of the words are lent.
    pub lent: usize,
    /// The bytes of the output.
    pub room: usize,
    /// Whether a list of calls led to the state, before it was changed any more.
    pub called: bool,
}

/// What is unusual about a carry.
#[derive(Clone, Copy, PartialEq)]
enum Trouble {
    None,
    Sheet,
    ShortState,
    State,
    Stage,
    Sizes,
    Room,
    Records,
    Ranks,
}

const TROUBLES: [Trouble; 16] = [
    Trouble::None,
    Trouble::None,
    Trouble::None,
    Trouble::None,
    Trouble::Sheet,
    Trouble::Sheet,
    Trouble::ShortState,
    Trouble::State,
    Trouble::Stage,
    Trouble::Sizes,
    Trouble::Room,
    Trouble::Records,
    Trouble::Records,
    Trouble::Ranks,
    Trouble::Ranks,
    Trouble::Ranks,
];

/// Inputs with one trouble or none, now and then with two.
pub fn any(r: &mut Numbers) -> Inputs {
    let first = r.one_of(&TROUBLES);
    let second = if r.once_in(6) {
        r.one_of(&TROUBLES)
    } else {
        first
    };
    let has = |trouble| first == trouble || second == trouble;
    let called = r.once_in(2);
    let mut draft = if called {
        lists::any_sheet(r)
    } else {
        sheets::standing(r)
    };
    change_years(&mut draft, r);
    let mut year = any_year(&draft, called, has(Trouble::Stage), has(Trouble::Sizes), r);
    if r.once_in(4) {
        thin_out_locks(&mut year, r);
    }
    if has(Trouble::Ranks) || has(Trouble::Records) || !r.once_in(4) {
        end_high_ranks(&mut draft, &year);
    }
    if has(Trouble::Ranks) {
        near_most_ranks(&mut draft, &mut year, r);
    }
    if has(Trouble::Records) {
        near_most_records(&mut draft, &mut year, r);
    }
    let mut words = r.words(STATE_WORDS + BEHIND);
    layout::write(&year, &mut words);
    if has(Trouble::State) {
        damage_state(&mut words, r);
    }
    let needed = HEADER_BYTES + RECORD_BYTES * (kept(&draft) + locks(&year).len());
    Inputs {
        sheet: if has(Trouble::Sheet) {
            damage_sheet(draft, r)
        } else {
            draft.bytes()
        },
        words,
        lent: if has(Trouble::ShortState) {
            r.one_of(&[STATE_WORDS - 1, STATE_WORDS - 1, 0, 1, 48, 12_912, 15_000])
        } else {
            STATE_WORDS + r.index(BEHIND + 1)
        },
        room: if has(Trouble::Room) {
            short_room(needed, r)
        } else {
            enough_room(needed, r)
        },
        called: called && !has(Trouble::Sizes),
    }
}

/// How many of a sheet's records next year's sheet has: only those in their last year fall away.
fn kept(draft: &Draft) -> usize {
    draft.records.iter().filter(|record| stays(record)).count()
}

/// Whether next year's sheet has a record; kinds without years have 0.
pub fn stays(record: &Record) -> bool {
    record.key.years != 1
}

/// The pairs with a lock, as holder and intertie.
pub fn locks(year: &Year) -> Vec<(usize, usize)> {
    let interties = MAX_INTERTIES.min(year.interties as usize);
    let holders = MAX_HOLDERS.min(year.holders as usize);
    (0..holders)
        .flat_map(|holder| (0..interties).map(move |intertie| (holder, intertie)))
        .filter(|&(holder, intertie)| year.locked[intertie][holder] > 0)
        .collect()
}

/// The locks of each holder.
pub fn locks_of_holders(year: &Year) -> [u32; MAX_HOLDERS] {
    let mut counts = [0; MAX_HOLDERS];
    for (holder, _) in locks(year) {
        counts[holder] += 1;
    }
    counts
}

/// Gives the records with years others, of most sheets: all alike, the first ones or any.
fn change_years(draft: &mut Draft, r: &mut Numbers) {
    let choices: &[u32] = match r.below(8) {
        0 => &[1],
        1 => &[2],
        2 => &[1, 2],
        3 => &[1, 2, 3, MAX_YEARS],
        4 => &[MAX_YEARS],
        _ => return,
    };
    for record in &mut draft.records {
        if record.key.years > 0 {
            record.key.years = r.one_of(choices);
        }
    }
}

/// Years of a record that stays.
fn years_that_stay(r: &mut Numbers) -> u32 {
    let any = 2 + r.below(u64::from(MAX_YEARS) - 1) as u32;
    r.one_of(&[2, 3, MAX_YEARS, any])
}

/// A state of stage 4, or of another: one that calls led to from the sheet, or any orderly one of the
/// sheet's sizes or of others.
fn any_year(
    draft: &Draft,
    called: bool,
    other_stage: bool,
    other_sizes: bool,
    r: &mut Numbers,
) -> Box<Year> {
    let stage = if other_stage {
        TRADING + r.below(3) as u32
    } else {
        OPEN
    };
    let (interties, holders) = (draft.interties as usize, draft.holders as usize);
    if other_sizes {
        let (interties, holders) = sizes_beside(interties, holders, r);
        return years::orderly_of(interties, holders, stage, r);
    }
    if called {
        return led_to(stage, &draft.bytes(), r);
    }
    let mut year = years::orderly_of(interties, holders, stage, r);
    if r.once_in(3) {
        lock_all(&mut year, r);
    }
    year
}

/// Sizes of which one is another, by one or by any number, or both are.
fn sizes_beside(interties: usize, holders: usize, r: &mut Numbers) -> (usize, usize) {
    let (any_interties, any_holders) = sheets::sizes(r);
    let (more, fewer) = (interties % MAX_INTERTIES + 1, interties.max(2) - 1);
    match r.below(6) {
        0 => (more, holders),
        1 => (fewer, holders),
        2 => (interties, holders % MAX_HOLDERS + 1),
        3 => (interties, holders.max(2) - 1),
        4 => (any_interties, holders),
        _ => (any_interties, any_holders),
    }
}

/// The year that a sheet opens to and a list of calls leads to, in the given stage; in stage 4, with locks
/// where they are granted.
fn led_to(stage: u32, sheet: &[u8], r: &mut Numbers) -> Box<Year> {
    let mut year = Box::new(Year::blank());
    year.open(sheet, STATE_WORDS);
    let calls = 4 + r.below(60);
    while year.stage < stage {
        for _ in 0..calls {
            let call = any_call(&year, NO_CLOSINGS, r);
            theirs(call, &mut year, STATE_WORDS, &mut []);
        }
        let mut grants = [0; GRANT_WORDS];
        theirs(
            Call::Close(GRANT_WORDS),
            &mut year,
            STATE_WORDS,
            &mut grants,
        );
    }
    if stage == OPEN {
        call_locks(&mut year, r);
    }
    year
}

/// Calls of stage 4: any, and locks on the placed pairs.
fn call_locks(year: &mut Year, r: &mut Numbers) {
    for _ in 0..r.below(10) {
        let call = any_call(year, NO_CLOSINGS, r);
        theirs(call, year, STATE_WORDS, &mut []);
    }
    let often = r.one_of(&[1, 1, 3]);
    for holder in 0..year.holders {
        for intertie in 0..year.interties {
            let placed = year.placed[intertie as usize][holder as usize];
            if placed > 0 && r.once_in(often) {
                let part = u64::from(placed) / r.one_of(&[1, 8, 64]);
                let kw = 1 + r.below(part + 1);
                let call = Call::Lock(holder, intertie, kw, any_term(r));
                theirs(call, year, STATE_WORDS, &mut []);
            }
        }
    }
}

/// The years of a lock, often the fewest or the most.
fn any_term(r: &mut Numbers) -> u32 {
    let any = 1 + r.below(MAX_YEARS.into()) as u32;
    r.one_of(&[1, 2, MAX_YEARS, any, any])
}

/// Places a kW on every pair that has none, and locks one on every pair without a lock. Where no kW are
/// unassigned, the limit grows.
fn lock_all(year: &mut Year, r: &mut Numbers) {
    for intertie in 0..year.interties as usize {
        for holder in 0..year.holders as usize {
            if year.placed[intertie][holder] == 0 {
                if year.unassigned[intertie] > 0 {
                    year.unassigned[intertie] -= 1;
                } else if year.limit[intertie] < MAX_KW {
                    year.limit[intertie] += 1;
                } else {
                    continue;
                }
                year.placed[intertie][holder] = 1;
            }
            if year.locked[intertie][holder] == 0 {
                year.locked[intertie][holder] = 1;
                year.lock_term[intertie][holder] = any_term(r);
            }
        }
    }
    assert!(year.is_orderly());
}

fn unlock(year: &mut Year, (holder, intertie): (usize, usize)) {
    year.locked[intertie][holder] = 0;
    year.lock_term[intertie][holder] = 0;
}

/// Leaves only some of the locks.
fn thin_out_locks(year: &mut Year, r: &mut Numbers) {
    let often = r.one_of(&[1, 2, 2, 4, 4, 4]);
    for pair in locks(year) {
        if r.once_in(often) {
            unlock(year, pair);
        }
    }
}

/// Ends the commitments whose ranks leave no room for their holder's locks.
fn end_high_ranks(draft: &mut Draft, year: &Year) {
    let locks = locks_of_holders(year);
    for record in &mut draft.records {
        let key = &mut record.key;
        if key.kind == NEW_USE_COMMITMENT && key.rank + locks[key.holder as usize] > MAX_RANK {
            key.years = 1;
        }
    }
}

/// Gives a holder with locks, mostly one or two, a highest kept rank such that its locks end at a rank
/// around 255. Its higher ranks fall away.
fn near_most_ranks(draft: &mut Draft, year: &mut Year, r: &mut Numbers) {
    let all = locks(year);
    if all.is_empty() {
        return;
    }
    let holder = r.one_of(&all).0;
    let mut own: Vec<_> = all.into_iter().filter(|pair| pair.0 == holder).collect();
    r.shuffle(&mut own);
    let most = r.one_of(&[1, 1, 2, 2, MAX_INTERTIES]).min(own.len());
    own[most..].iter().for_each(|&pair| unlock(year, pair));
    let last = MAX_RANK + r.one_of(&[0, 0, 0, 1, 1, 2]) - r.one_of(&[0, 0, 0, 0, 1]);
    let rank = (last - most as u32).min(MAX_RANK);
    keep_highest_rank(draft, holder as u32, rank, r);
}

/// Makes a rank the highest that a holder keeps, where the sheet can.
fn keep_highest_rank(draft: &mut Draft, holder: u32, rank: u32, r: &mut Numbers) {
    let years = years_that_stay(r);
    let is_own = |key: Key| key.kind == NEW_USE_COMMITMENT && key.holder == holder;
    for record in &mut draft.records {
        if is_own(record.key) && record.key.rank > rank {
            record.key.years = 1;
        }
    }
    let records = &mut draft.records;
    let of_rank = records
        .iter()
        .position(|record| is_own(record.key) && record.key.rank == rank);
    let any_own = records.iter().position(|record| is_own(record.key));
    if let Some(at) = of_rank.or(any_own) {
        records[at].key.rank = rank;
        records[at].key.years = years;
    } else {
        add(draft, NEW_USE_COMMITMENT, holder, rank, years, r);
    }
}

/// Adds a commitment of a kW at any place of the records, if there may be one more.
fn add(draft: &mut Draft, kind: u32, holder: u32, rank: u32, years: u32, r: &mut Numbers) {
    if draft.room() == 0 {
        return;
    }
    let intertie = r.below(draft.interties.into()) as u32;
    let key = Key {
        kind,
        holder,
        intertie,
        rank,
        years,
    };
    let at = r.index(draft.records.len() + 1);
    draft.records.insert(at, Record { key, quantity: 1 });
}

/// Brings the kept records and the locks together to about 1,024, where the sheet can: some records end or
/// go on, others are added, and some locks fall away.
fn near_most_records(draft: &mut Draft, year: &mut Year, r: &mut Numbers) {
    let wanted = MAX_RECORDS + r.one_of(&[0, 0, 0, 1, 1, 1, 2]) - r.one_of(&[0, 0, 0, 0, 1]);
    let without_years = draft.records.iter().filter(|it| it.key.years == 0).count();
    let mut locked = locks(year);
    r.shuffle(&mut locked);
    let most_locks = (wanted - without_years.min(wanted)).min(locked.len());
    for pair in locked.drain(most_locks..) {
        unlock(year, pair);
    }
    let wanted_kept = wanted - locked.len();
    for _ in kept(draft)..wanted_kept {
        let (holder, years) = (r.below(draft.holders.into()) as u32, years_that_stay(r));
        add(draft, PRE_RA_COMMITMENT, holder, 0, years, r);
    }
    let mut places: Vec<usize> = (0..draft.records.len()).collect();
    r.shuffle(&mut places);
    let mut now = kept(draft);
    for at in places {
        let key = &mut draft.records[at].key;
        if now > wanted_kept && key.years > 1 {
            key.years = 1;
            now -= 1;
        } else if now < wanted_kept && key.years == 1 && key.rank == 0 {
            key.years = years_that_stay(r);
            now += 1;
        }
    }
}

/// Changes named words of a state until it isn't orderly, at most some times.
fn damage_state(words: &mut [u32], r: &mut Numbers) {
    for _ in 0..8 {
        singles::damage(words, r);
        if !layout::read(words).is_orderly() {
            return;
        }
    }
}

/// A sheet damaged for refusals 1 to 4, with a few bits changed, or other bytes.
fn damage_sheet(draft: Draft, r: &mut Numbers) -> Vec<u8> {
    match r.below(10) {
        0 => damages::garbage(r),
        1 => damages::flipped(draft, r),
        _ => damages::damaged(draft, r),
    }
}

/// The bytes of an output that next year's sheet of `needed` bytes fits in, most often just.
fn enough_room(needed: usize, r: &mut Numbers) -> usize {
    let most = HEADER_BYTES + RECORD_BYTES * MAX_RECORDS;
    match r.below(8) {
        0..=3 => needed,
        4 => needed + 1 + r.index(9),
        5 => needed + r.index(4_000),
        6 => needed + RECORD_BYTES,
        _ => needed.max(most),
    }
}

/// The bytes of an output that is too short: by a byte, a word, a record, or far; or none.
fn short_room(needed: usize, r: &mut Numbers) -> usize {
    let any = r.index(needed);
    let near = [needed - 1, needed - 4, needed - RECORD_BYTES];
    r.one_of(&[
        near[0], near[0], near[0], near[1], near[2], 0, 0, 11, 12, any,
    ])
    .min(needed - 1)
}
