//! Full sheets: 48 interties, 32 holders and 1,024 records, with more asked for than there is on many
//! interties.

use crate::numbers::Numbers;
use independent::share_out::MAX_HOLDERS;
use independent::sheet::{
    Key, EXISTING_CONTRACT, LIMIT, LOAD_SHARE, MAX_INTERTIES, MAX_RECORDS, NEW_USE_COMMITMENT,
    OUTSIDE_RIGHT, PRE_RA_COMMITMENT,
};

/// How many full sheets there are.
pub const SHEETS: usize = 8;

/// The records of each kind; with a limit for each intertie and a load share for each holder, 1,024.
const OUTSIDE_RIGHTS: usize = 48;
const EXISTING_CONTRACTS: usize = 256;
const COMMITMENTS: usize = (MAX_RECORDS - 384) / 2;

/// The interties where more is asked for than there is.
pub const CROWDED: usize = 8;

/// The records of a sheet, as words of key and quantity.
type Records = Vec<(u32, u32)>;

/// Full sheet `number`, with its records in any order.
pub fn full(number: usize) -> Vec<u8> {
    let mut r = Numbers::new(22, number as u64);
    let mut records = records(&mut r);
    r.shuffle(&mut records);
    bytes(&records)
}

/// Full sheet `number` with its records in another order: it opens to the same year.
pub fn reordered(number: usize) -> Vec<u8> {
    let mut r = Numbers::new(22, number as u64);
    let mut records = records(&mut r);
    r.shuffle(&mut records);
    r.shuffle(&mut records);
    bytes(&records)
}

fn records(r: &mut Numbers) -> Records {
    let mut records = Records::new();
    let limits: Vec<u64> = (0..MAX_INTERTIES)
        .map(|_| 1_000_000 + r.below(19_000_001))
        .collect();
    let mut left = limits.clone();
    for (intertie, &limit) in limits.iter().enumerate() {
        records.push((key(LIMIT, 0, intertie, 0, 0), limit as u32));
    }
    for holder in 0..MAX_HOLDERS {
        let share = 70_000_000 + r.below(30_000_001);
        records.push((key(LOAD_SHARE, holder, 0, 0, 0), share as u32));
    }
    for _ in 0..OUTSIDE_RIGHTS {
        let intertie = r.index(MAX_INTERTIES);
        let kw = 1 + r.below(left[intertie] / 20);
        left[intertie] -= kw;
        records.push((key(OUTSIDE_RIGHT, 0, intertie, 0, 0), kw as u32));
    }
    for _ in 0..EXISTING_CONTRACTS {
        let (holder, intertie) = (r.index(MAX_HOLDERS), r.index(MAX_INTERTIES));
        let kw = 1 + r.below(left[intertie] / 24);
        left[intertie] -= kw;
        let key = key(EXISTING_CONTRACT, holder, intertie, 0, years(r));
        records.push((key, kw as u32));
    }
    for kind in [PRE_RA_COMMITMENT, NEW_USE_COMMITMENT] {
        commitments(kind, &limits, r, &mut records);
    }
    records
}

/// Commitments, half of them on the crowded interties.
fn commitments(kind: u32, limits: &[u64], r: &mut Numbers, records: &mut Records) {
    let mut ranks = [0; MAX_HOLDERS];
    for count in 0..COMMITMENTS {
        let holder = r.index(MAX_HOLDERS);
        let (intertie, parts) = if count % 2 == 0 {
            (r.index(CROWDED), 10)
        } else {
            (r.index(MAX_INTERTIES), 60)
        };
        let kw = 1 + r.below(limits[intertie] / parts);
        let rank = if kind == NEW_USE_COMMITMENT {
            ranks[holder] += 1;
            ranks[holder]
        } else {
            0
        };
        records.push((key(kind, holder, intertie, rank, years(r)), kw as u32));
    }
}

fn years(r: &mut Numbers) -> u32 {
    1 + r.below(4) as u32
}

fn key(kind: u32, holder: usize, intertie: usize, rank: u32, years: u32) -> u32 {
    Key {
        kind,
        holder: holder as u32,
        intertie: intertie as u32,
        rank,
        years,
    }
    .to_word()
}

/// The three words, the keys, the quantities.
fn bytes(records: &Records) -> Vec<u8> {
    assert_eq!(records.len(), MAX_RECORDS);
    let header = [MAX_INTERTIES, MAX_HOLDERS, MAX_RECORDS].map(|size| size as u32);
    let keys = records.iter().map(|record| record.0);
    let quantities = records.iter().map(|record| record.1);
    header
        .into_iter()
        .chain(keys)
        .chain(quantities)
        .flat_map(u32::to_le_bytes)
        .collect()
}
