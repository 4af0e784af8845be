//! Sheets damaged in the ways that refusals 1 to 4 name, and bytes that are hardly a sheet.

use crate::numbers::Numbers;
use crate::sheets::{kw_records, Draft};
use independent::share_out::MAX_HOLDERS;
use independent::sheet::{
    Key, Record, EXISTING_CONTRACT, HEADER_BYTES, LIMIT, LOAD_SHARE, MAX_INTERTIES, MAX_KW,
    MAX_LOAD_SHARE, MAX_RECORDS, MAX_YEARS, NEW_USE_COMMITMENT, OUTSIDE_RIGHT, PRE_RA_COMMITMENT,
    RECORD_BYTES,
};

/// The bytes of a sheet damaged for one of the refusals 1 to 4, sometimes for another one too.
pub fn damaged(mut draft: Draft, r: &mut Numbers) -> Vec<u8> {
    let first = r.one_of(&[1, 1, 2, 2, 3, 3, 3, 4, 4]);
    let second = if r.once_in(5) { 1 + r.below(4) } else { first };
    let has = |number| first == number || second == number;
    if has(4) {
        pass_a_limit(&mut draft, r);
    }
    if has(3) {
        break_a_rule(&mut draft, r);
    }
    if has(2) {
        break_sizes(&mut draft, r);
    }
    if has(1) && r.once_in(10) {
        overfill(&mut draft, r);
        return draft.bytes();
    }
    let mut bytes = draft.bytes();
    if has(1) {
        break_length(&mut bytes, r);
    }
    bytes
}

/// The bytes of a sheet with a few bits changed.
pub fn flipped(draft: Draft, r: &mut Numbers) -> Vec<u8> {
    let mut bytes = draft.bytes();
    for _ in 0..1 + r.below(3) {
        let at = r.index(bytes.len());
        bytes[at] ^= 1 << r.below(8);
    }
    bytes
}

/// Bytes that are hardly a sheet: any bytes, all alike, no records, or any records.
pub fn garbage(r: &mut Numbers) -> Vec<u8> {
    let length = r.index(64);
    match r.below(5) {
        0 => (0..length).map(|_| r.next() as u8).collect(),
        1 => vec![r.one_of(&[0, 1, 255]); length],
        2 => {
            let count: u32 = r.one_of(&[0, 1, 1 << 29, 1 << 30, 1 << 31]);
            [1, 1, count]
                .into_iter()
                .flat_map(u32::to_le_bytes)
                .collect()
        }
        _ => stray_records(r).bytes(),
    }
}

/// A few records of a small sheet with any fields: wild ones, or small ones that sometimes stand.
fn stray_records(r: &mut Numbers) -> Draft {
    let wild = r.once_in(2);
    let any_record = |r: &mut Numbers| {
        let key = Key {
            kind: 1 + r.below(7) as u32,
            holder: r.below(2) as u32,
            intertie: r.below(2) as u32,
            rank: r.below(2) as u32,
            years: r.below(2) as u32,
        };
        let key = if wild {
            Key::from_word(r.next() as u32)
        } else {
            key
        };
        Record {
            key,
            quantity: if wild {
                r.next() as u32
            } else {
                r.below(5) as u32
            },
        }
    };
    let count = r.below(6);
    let mut records: Vec<Record> = (0..count).map(|_| any_record(r)).collect();
    records.insert(0, limit_record(0, 4));
    Draft {
        interties: 1 + r.below(2) as u32,
        holders: 1 + r.below(3) as u32,
        records,
    }
}

fn limit_record(intertie: u32, quantity: u32) -> Record {
    let key = Key {
        kind: LIMIT,
        holder: 0,
        intertie,
        rank: 0,
        years: 0,
    };
    Record { key, quantity }
}

/// Refusal 1: a length off by a byte, a word or a record, or cut anywhere; a K that isn't the records'.
fn break_length(bytes: &mut Vec<u8>, r: &mut Numbers) {
    let count = ((bytes.len() - HEADER_BYTES) / RECORD_BYTES) as u32;
    let some = r.one_of(&[1, 1, 1, 2, 3, 4, 7, 8, 12]);
    match r.below(8) {
        0 | 1 => bytes.truncate(bytes.len().saturating_sub(some)),
        2 | 3 => bytes.extend((0..some).map(|_| r.next() as u8)),
        4 => bytes.truncate(r.one_of(&[0, 1, 4, 8, 11, HEADER_BYTES])),
        5 => bytes.truncate(r.index(bytes.len())),
        _ => {
            // 8·K has the right low 32 bits for the first of these, 4·K for the second.
            let wrapped = [
                count + (1 + r.below(7) as u32) * (1 << 29),
                count + (1 + r.below(3) as u32) * (1 << 30),
            ];
            let near = [count + 1, count.wrapping_sub(1), MAX_RECORDS as u32 + 1];
            let far = [count + (1 << 16), count + (1 << 31), u32::MAX];
            let count = r.one_of(&[
                wrapped[0], wrapped[1], near[0], near[1], near[2], far[0], far[1], far[2],
            ]);
            bytes[8..HEADER_BYTES].copy_from_slice(&count.to_le_bytes());
        }
    }
}

/// Refusal 1: more than 1,024 records, all of them there.
fn overfill(draft: &mut Draft, r: &mut Numbers) {
    let count = MAX_RECORDS + r.one_of(&[1, 1, 2, 100]);
    let record = draft.records.last().copied().unwrap_or(limit_record(0, 0));
    draft.records.resize(count, record);
}

/// Refusal 2: a size of 0, one too many, or far too large, also where its low bits stand.
fn break_sizes(draft: &mut Draft, r: &mut Numbers) {
    let which = r.below(5);
    if which != 0 {
        draft.interties = beyond_size(draft.interties, MAX_INTERTIES as u32, r);
    }
    if which < 2 {
        draft.holders = beyond_size(draft.holders, MAX_HOLDERS as u32, r);
    }
}

fn beyond_size(size: u32, most: u32, r: &mut Numbers) -> u32 {
    let any = most + 1 + (r.next() as u32 >> (1 + r.below(31)));
    let low_bits_stand = size + r.one_of(&[64, 256, 1 << 16, 1 << 31]);
    r.one_of(&[0, 0, most + 1, most + 1, low_bits_stand, any, u32::MAX])
}

/// Refusal 3: one record that breaks a rule by itself or with the others, or sizes that don't fit them.
fn break_a_rule(draft: &mut Draft, r: &mut Numbers) {
    match r.below(12) {
        0 => break_limits(draft, r),
        1 => repeat_a_load_share(draft, r),
        2 => repeat_a_rank(draft, r),
        3 => resize_by_one(draft, r),
        _ => {
            let kind = r.one_of(&[
                LIMIT,
                OUTSIDE_RIGHT,
                LOAD_SHARE,
                EXISTING_CONTRACT,
                PRE_RA_COMMITMENT,
                NEW_USE_COMMITMENT,
            ]);
            // A sheet without the kind has at least its limits.
            if let Some(at) = find(draft, kind, r).or_else(|| find(draft, LIMIT, r)) {
                break_record(draft, at, r);
            }
        }
    }
}

/// A limit twice, a limit missing, or both.
fn break_limits(draft: &mut Draft, r: &mut Numbers) {
    let Some(at) = find(draft, LIMIT, r) else {
        return;
    };
    let limit = draft.records[at];
    match r.below(4) {
        0 => {
            draft.records.remove(at);
        }
        1 => draft.records[at].key.intertie = r.below(draft.interties.into()) as u32,
        2 => put(draft, limit, r),
        _ => put(
            draft,
            Record {
                quantity: r.below(u64::from(MAX_KW) + 1) as u32,
                ..limit
            },
            r,
        ),
    }
}

/// A second load share of a holder, of the same size or another; where there is no first, that one is 0.
fn repeat_a_load_share(draft: &mut Draft, r: &mut Numbers) {
    let again = match find(draft, LOAD_SHARE, r) {
        Some(at) => draft.records[at],
        None => {
            let holder = r.below(draft.holders.into()) as u32;
            let none = Record {
                key: Key {
                    kind: LOAD_SHARE,
                    holder,
                    intertie: 0,
                    rank: 0,
                    years: 0,
                },
                quantity: 0,
            };
            put(draft, none, r);
            none
        }
    };
    let quantity = r.one_of(&[again.quantity, 0, 1, MAX_LOAD_SHARE]);
    put(draft, Record { quantity, ..again }, r);
}

/// A second commitment of a holder with the same rank, on the same intertie or another.
fn repeat_a_rank(draft: &mut Draft, r: &mut Numbers) {
    let Some(at) = find(draft, NEW_USE_COMMITMENT, r) else {
        return;
    };
    let mut again = draft.records[at];
    again.key.intertie = r.below(draft.interties.into()) as u32;
    again.key.years = 1 + r.below(MAX_YEARS.into()) as u32;
    again.quantity = 1 + r.below(MAX_KW.into()) as u32;
    put(draft, again, r);
}

/// A size one more or one less than the records were made for; with a holder more they still stand.
fn resize_by_one(draft: &mut Draft, r: &mut Numbers) {
    match r.below(4) {
        0 => draft.interties += 1,
        1 => draft.interties -= 1,
        2 => draft.holders += 1,
        _ => draft.holders -= 1,
    }
}

/// A record that breaks a rule by itself: an unknown kind, a field its kind doesn't name, a holder, an
/// intertie, a rank, years or a quantity out of range.
fn break_record(draft: &mut Draft, at: usize, r: &mut Numbers) {
    let (interties, holders) = (draft.interties, draft.holders);
    let kind = draft.records[at].key.kind;
    let has_holder = kind >= LOAD_SHARE;
    let has_years = kind >= EXISTING_CONTRACT;
    let Record { key, quantity } = &mut draft.records[at];
    match r.below(8) {
        0 => key.kind = r.one_of(&[0, 0, 7, 7, 8, 9, 10, 11, 12, 13, 14, 15]),
        1 if kind != NEW_USE_COMMITMENT => key.rank = r.one_of(&[1, 128, 255]),
        1 => key.rank = 0,
        2 if has_years => key.years = beyond_years(key.years, r),
        2 => key.years = r.one_of(&[1, 30, 128, 255]),
        3 | 4 if has_holder => key.holder = beyond_field(key.holder, holders, r),
        3 | 4 if holders > 1 => key.holder = 1 + r.below(u64::from(holders) - 1) as u32,
        5 | 6 if kind == LOAD_SHARE && interties > 1 => {
            key.intertie = 1 + r.below(u64::from(interties) - 1) as u32
        }
        // The limit itself stays, so that it isn't missing too.
        5 | 6 if kind == LIMIT => {
            let mut stray = draft.records[at];
            stray.key.intertie = beyond_field(stray.key.intertie, interties, r);
            put(draft, stray, r);
        }
        5 | 6 => key.intertie = beyond_field(key.intertie, interties, r),
        _ => *quantity = beyond_quantity(kind, r),
    }
}

/// Years that no record may have: none, one too many, or far too many, also where their low bits stand.
fn beyond_years(years: u32, r: &mut Numbers) -> u32 {
    let low_bits_stand = years + r.one_of(&[32, 64, 128]);
    r.one_of(&[0, 0, MAX_YEARS + 1, MAX_YEARS + 1, low_bits_stand, 255])
}

/// A field of six bits from `bound` up, also where its low five bits stand.
fn beyond_field(field: u32, bound: u32, r: &mut Numbers) -> u32 {
    let any = bound + r.below(u64::from(64 - bound)) as u32;
    r.one_of(&[bound, bound, any, 63, (field + 32).clamp(bound, 63)])
}

/// A quantity that the kind may not have: one too many, far too many, or 0.
fn beyond_quantity(kind: u32, r: &mut Numbers) -> u32 {
    let most = if kind == LOAD_SHARE {
        MAX_LOAD_SHARE
    } else {
        MAX_KW
    };
    let none = if kind == LIMIT || kind == LOAD_SHARE {
        most + 1
    } else {
        0
    };
    let any = most + 1 + (r.next() as u32 >> 1);
    r.one_of(&[
        most + 1,
        most + 1,
        none,
        none,
        most + (1 << 31),
        any,
        u32::MAX,
    ])
}

/// Refusal 4: outside rights and existing contracts above a limit: by 1 kW, by more, or by just so much
/// that 32 bits would not show it.
fn pass_a_limit(draft: &mut Draft, r: &mut Numbers) {
    let Some(at) = find(draft, LIMIT, r) else {
        return;
    };
    let Record {
        key: Key { intertie, .. },
        quantity: limit,
    } = draft.records[at];
    let counts = |record: &&Record| {
        [OUTSIDE_RIGHT, EXISTING_CONTRACT].contains(&record.key.kind)
            && record.key.intertie == intertie
    };
    let used: u64 = draft
        .records
        .iter()
        .filter(counts)
        .map(|record| u64::from(record.quantity))
        .sum();
    // Nothing is left where a limit was passed before.
    let left = u64::from(limit).saturating_sub(used);
    match r.below(4) {
        0 if used > 0 => draft.records[at].quantity = used as u32 - 1,
        1 => add_rights(draft, intertie, (1 << 32) + r.below(left + 1), r),
        2 => add_rights(draft, intertie, left + 1 + r.below(100), r),
        _ => add_rights(draft, intertie, left + 1, r),
    }
}

/// Adds outside rights and existing contracts on an intertie that together have `kw`. Where there is no
/// room for them, commitments go.
fn add_rights(draft: &mut Draft, intertie: u32, kw: u64, r: &mut Numbers) {
    let most_others = MAX_RECORDS - kw_records(kw).count();
    let mut surplus = draft.records.len().saturating_sub(most_others);
    draft.records.retain(|record| {
        let goes = surplus > 0 && record.key.kind >= PRE_RA_COMMITMENT;
        surplus -= usize::from(goes);
        !goes
    });
    let outside = r.below(3);
    for kw in kw_records(kw) {
        let key = if outside == 0 || (outside == 1 && r.once_in(2)) {
            Key {
                kind: OUTSIDE_RIGHT,
                holder: 0,
                intertie,
                rank: 0,
                years: 0,
            }
        } else {
            Key {
                kind: EXISTING_CONTRACT,
                holder: r.below(draft.holders.into()) as u32,
                intertie,
                rank: 0,
                years: 1,
            }
        };
        put(
            draft,
            Record {
                key,
                quantity: kw as u32,
            },
            r,
        );
    }
}

/// The index of one of the records of a kind.
fn find(draft: &Draft, kind: u32, r: &mut Numbers) -> Option<usize> {
    let of_kind = || {
        draft
            .records
            .iter()
            .enumerate()
            .filter(|(_, record)| record.key.kind == kind)
    };
    let count = of_kind().count();
    of_kind().nth(r.index(count.max(1))).map(|(at, _)| at)
}

/// Adds a record anywhere; in a full sheet it takes the place of a Pre-RA commitment.
fn put(draft: &mut Draft, record: Record, r: &mut Numbers) {
    if draft.room() > 0 {
        let at = r.index(draft.records.len() + 1);
        draft.records.insert(at, record);
    } else if let Some(at) = find(draft, PRE_RA_COMMITMENT, r) {
        draft.records[at] = record;
    }
}
