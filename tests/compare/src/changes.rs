//! Changes of standing sheets: such as leave the year that they open to as it is, and such as mostly change it.

use crate::numbers::Numbers;
use crate::sheets::Draft;
use independent::share_out::MAX_HOLDERS;
use independent::sheet::{
    Key, Record, EXISTING_CONTRACT, LIMIT, LOAD_SHARE, MAX_INTERTIES, MAX_KW, MAX_RANK, MAX_YEARS,
    NEW_USE_COMMITMENT, OUTSIDE_RIGHT, PRE_RA_COMMITMENT,
};

/// A change of a sheet by its name. Where a sheet has nothing to change so, it stays.
pub type Change = (&'static str, fn(&mut Draft, &mut Numbers));

/// Changes that leave the year as it is.
pub const KEPT: [Change; 6] = [
    ("another order", |draft, r| r.shuffle(&mut draft.records)),
    ("records split", split),
    ("records joined", join),
    ("other years", change_years),
    ("load shares of 0", change_zeros),
    ("other ranks in the same order", renumber),
];

/// Changes that mostly give another year.
pub const OTHER: [Change; 6] = [
    ("a kW more or less", |draft, r| {
        change_one(draft, |kind| kind != LOAD_SHARE, r)
    }),
    ("a load share changed", |draft, r| {
        change_one(draft, |kind| kind == LOAD_SHARE, r)
    }),
    ("a record elsewhere", move_one),
    ("a record left out", leave_out),
    ("ranks exchanged", exchange_ranks),
    ("another size", resize),
];

/// Whether records of a kind may be several, so that their kW add up.
fn adds_up(kind: u32) -> bool {
    [OUTSIDE_RIGHT, EXISTING_CONTRACT, PRE_RA_COMMITMENT].contains(&kind)
}

/// One of the records' places that fit, if there is one.
fn find(draft: &Draft, r: &mut Numbers, fits: impl Fn(&Record) -> bool) -> Option<usize> {
    let places: Vec<usize> = (0..draft.records.len())
        .filter(|&at| fits(&draft.records[at]))
        .collect();
    (!places.is_empty()).then(|| r.one_of(&places))
}

/// Splits some of the records that add up in two.
fn split(draft: &mut Draft, r: &mut Numbers) {
    for _ in 0..1 + r.below(8) {
        let fits = |record: &Record| adds_up(record.key.kind) && record.quantity > 1;
        let Some(at) = find(draft, r, fits).filter(|_| draft.room() > 0) else {
            return;
        };
        let mut part = draft.records[at];
        part.quantity = 1 + r.below(u64::from(part.quantity) - 1) as u32;
        draft.records[at].quantity -= part.quantity;
        if part.key.kind != OUTSIDE_RIGHT {
            part.key.years = any_years(r);
        }
        let place = r.index(draft.records.len() + 1);
        draft.records.insert(place, part);
    }
}

/// Joins some of the records of a pair that add up.
fn join(draft: &mut Draft, r: &mut Numbers) {
    for _ in 0..1 + r.below(8) {
        let records = &draft.records;
        let joins = |one: &Record, other: &Record| {
            let pair = |key: Key| (key.kind, key.holder, key.intertie);
            pair(one.key) == pair(other.key) && one.quantity + other.quantity <= MAX_KW
        };
        let partner =
            |at: usize| (at + 1..records.len()).find(|&other| joins(&records[at], &records[other]));
        let pairs: Vec<(usize, usize)> = (0..records.len())
            .filter(|&at| adds_up(records[at].key.kind))
            .filter_map(|at| partner(at).map(|other| (at, other)))
            .take(20)
            .collect();
        if pairs.is_empty() {
            return;
        }
        let (at, other) = r.one_of(&pairs);
        draft.records[at].quantity += draft.records[other].quantity;
        draft.records.remove(other);
    }
}

fn any_years(r: &mut Numbers) -> u32 {
    1 + r.below(MAX_YEARS.into()) as u32
}

/// Gives contracts and commitments other years.
fn change_years(draft: &mut Draft, r: &mut Numbers) {
    let often = r.one_of(&[1, 3, 20]);
    for record in &mut draft.records {
        if record.key.kind >= EXISTING_CONTRACT && r.once_in(often) {
            record.key.years = any_years(r);
        }
    }
}

/// Leaves load shares of 0 out, or writes them for holders without one.
fn change_zeros(draft: &mut Draft, r: &mut Numbers) {
    for holder in 0..draft.holders {
        let is_its = |record: &Record| record.key.kind == LOAD_SHARE && record.key.holder == holder;
        match draft.records.iter().position(is_its) {
            Some(at) if draft.records[at].quantity == 0 && r.once_in(2) => {
                draft.records.remove(at);
            }
            None if draft.room() > 0 && r.once_in(2) => {
                let key = Key {
                    kind: LOAD_SHARE,
                    holder,
                    intertie: 0,
                    rank: 0,
                    years: 0,
                };
                let place = r.index(draft.records.len() + 1);
                draft.records.insert(place, Record { key, quantity: 0 });
            }
            _ => {}
        }
    }
}

/// Gives each holder's New Use commitments other ranks, the lower before the higher as they were.
fn renumber(draft: &mut Draft, r: &mut Numbers) {
    for holder in 0..draft.holders {
        let mut its = new_use_of(draft, holder);
        its.sort_by_key(|&at| draft.records[at].key.rank);
        let mut ranks: Vec<u32> = (1..=MAX_RANK).collect();
        if r.once_in(2) {
            r.shuffle(&mut ranks);
        }
        ranks.truncate(its.len());
        ranks.sort_unstable();
        give_ranks(draft, its, ranks);
    }
}

/// The places of a holder's New Use commitments.
fn new_use_of(draft: &Draft, holder: u32) -> Vec<usize> {
    let is_its = |&at: &usize| {
        let key = draft.records[at].key;
        key.kind == NEW_USE_COMMITMENT && key.holder == holder
    };
    (0..draft.records.len()).filter(is_its).collect()
}

fn give_ranks(draft: &mut Draft, places: Vec<usize>, ranks: Vec<u32>) {
    for (at, rank) in places.into_iter().zip(ranks) {
        draft.records[at].key.rank = rank;
    }
}

/// One more or one less in a record of such a kind.
fn change_one(draft: &mut Draft, fits: impl Fn(u32) -> bool, r: &mut Numbers) {
    let found = find(draft, r, |record| fits(record.key.kind));
    if let Some(at) = found {
        let quantity = &mut draft.records[at].quantity;
        *quantity = match r.below(2) {
            0 => *quantity + 1,
            _ => quantity.saturating_sub(1),
        };
    }
}

/// A contract or commitment of another holder or on another intertie.
fn move_one(draft: &mut Draft, r: &mut Numbers) {
    let found = find(draft, r, |record| adds_up(record.key.kind));
    if let Some(at) = found {
        let key = &mut draft.records[at].key;
        if key.kind == OUTSIDE_RIGHT || r.once_in(2) {
            key.intertie = r.below(draft.interties.into()) as u32;
        } else {
            key.holder = r.below(draft.holders.into()) as u32;
        }
    }
}

/// A record left out, other than a limit.
fn leave_out(draft: &mut Draft, r: &mut Numbers) {
    if let Some(at) = find(draft, r, |record| record.key.kind != LIMIT) {
        draft.records.remove(at);
    }
}

/// The ranks of each holder's New Use commitments exchanged among them.
fn exchange_ranks(draft: &mut Draft, r: &mut Numbers) {
    for holder in 0..draft.holders {
        let its = new_use_of(draft, holder);
        let mut ranks: Vec<u32> = its.iter().map(|&at| draft.records[at].key.rank).collect();
        r.shuffle(&mut ranks);
        give_ranks(draft, its, ranks);
    }
}

/// A holder more, without records, or an intertie more, with a limit of 0 or 1 kW.
fn resize(draft: &mut Draft, r: &mut Numbers) {
    if r.once_in(2) {
        draft.holders = (draft.holders + 1).min(MAX_HOLDERS as u32);
    } else if draft.interties < MAX_INTERTIES as u32 && draft.room() > 0 {
        let key = Key {
            kind: LIMIT,
            holder: 0,
            intertie: draft.interties,
            rank: 0,
            years: 0,
        };
        let quantity = r.below(2) as u32;
        draft.records.push(Record { key, quantity });
        draft.interties += 1;
    }
}
