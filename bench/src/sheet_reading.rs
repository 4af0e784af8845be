//! Opening full sheets, against the independent program and against reading their records once; and Same.

use crate::sheets::{self, SHEETS};
use crate::table::{Table, AS_FAST};
use crate::timing::time;
use crate::years::Both;
use crate::{layout, zankurbe};
use independent::beside;
use independent::share_out::MAX_HOLDERS;
use independent::sheet::{Key, HEADER_BYTES, MAX_INTERTIES, MAX_RECORDS};
use independent::year::{Year, STATE_WORDS};
use std::hint::black_box;

/// The ratio of an opening to the reading of its records that is aimed at.
const OPENING_TO_READING: f64 = 5.0;

/// How often a batch of readings goes through the sheets.
const TURNS: usize = 20;

pub fn measure(table: &mut Table) {
    let full: Vec<Vec<u8>> = (0..SHEETS).map(sheets::full).collect();
    let reordered: Vec<Vec<u8>> = (0..SHEETS).map(sheets::reordered).collect();
    let mut lent = Both::blank();
    let (year, state) = lent.sides();
    compare(&full, &reordered, state, year);

    table.row(
        "sheet refusal of a full sheet",
        Some(AS_FAST),
        1,
        |_| {
            time(SHEETS, || {
                full.iter()
                    .map(|sheet| zankurbe::sheet_refusal(black_box(sheet)))
                    .sum::<u32>()
            })
        },
        |_| {
            time(SHEETS, || {
                full.iter()
                    .map(|sheet| {
                        independent::Sheet::read(black_box(sheet)).map_or_else(|e| e, |_| 0)
                    })
                    .sum::<u32>()
            })
        },
    );
    let mut open_in_library = |_| {
        time(SHEETS, || {
            full.iter()
                .map(|sheet| zankurbe::open(black_box(sheet), black_box(&mut *state)).kw)
                .sum::<u64>()
        })
    };
    table.row(
        "opening a full sheet",
        Some(AS_FAST),
        1,
        &mut open_in_library,
        |_| {
            time(SHEETS, || {
                full.iter()
                    .map(|sheet| black_box(&mut *year).open(black_box(sheet), STATE_WORDS).kw)
                    .sum::<u64>()
            })
        },
    );
    table.row(
        "  against reading its records, words summed",
        Some(OPENING_TO_READING),
        1,
        &mut open_in_library,
        |_| {
            time(TURNS * SHEETS, || {
                (0..TURNS)
                    .flat_map(|_| &full)
                    .map(|sheet| words_summed(black_box(sheet)))
                    .fold(0, u64::wrapping_add)
            })
        },
    );
    let mut tables = [[[0; MAX_HOLDERS]; MAX_INTERTIES]; 16];
    table.row(
        "  against reading its records, fields and pairs' sums",
        None,
        1,
        &mut open_in_library,
        |_| {
            time(SHEETS, || {
                for sheet in &full {
                    pairs_summed(black_box(sheet), black_box(&mut tables));
                }
            })
        },
    );
    table.row(
        "Same, two full sheets that open alike",
        Some(AS_FAST),
        1,
        |_| {
            time(SHEETS, || {
                full.iter()
                    .zip(&reordered)
                    .filter(|(one, other)| zankurbe::same(black_box(one), black_box(other)).1)
                    .count()
            })
        },
        |_| {
            time(SHEETS, || {
                full.iter()
                    .zip(&reordered)
                    .filter(|(one, other)| beside::same(black_box(one), black_box(other)).1)
                    .count()
            })
        },
    );
}

/// Compares what is timed once.
fn compare(full: &[Vec<u8>], reordered: &[Vec<u8>], state: &mut [u32], year: &mut Year) {
    for (sheet, other) in full.iter().zip(reordered) {
        assert_eq!(zankurbe::sheet_refusal(sheet), 0);
        let mut expected = state.to_vec();
        let opened = year.open(sheet, STATE_WORDS);
        layout::write(year, &mut expected);
        assert_eq!(zankurbe::open(sheet, state), opened);
        assert_eq!(state, &expected[..]);
        assert!(zankurbe::same(sheet, other).1 && beside::same(sheet, other).1);
    }
}

/// The words of a sheet's keys and of its quantities, record by record.
fn records(sheet: &[u8]) -> impl Iterator<Item = (u32, u32)> + '_ {
    let word = |bytes: &[u8]| u32::from_le_bytes([bytes[0], bytes[1], bytes[2], bytes[3]]);
    let (keys, quantities) = sheet[HEADER_BYTES..].split_at(4 * MAX_RECORDS);
    keys.chunks_exact(4)
        .zip(quantities.chunks_exact(4))
        .map(move |(key, quantity)| (word(key), word(quantity)))
}

/// Reads every record once and adds its words up.
#[inline(never)]
fn words_summed(sheet: &[u8]) -> u64 {
    records(sheet)
        .map(|(key, quantity)| u64::from(key) + u64::from(quantity))
        .sum()
}

/// Reads every record once, takes its fields out and adds its quantity to its kind's and pair's sum.
#[inline(never)]
fn pairs_summed(sheet: &[u8], sums: &mut [[[u64; MAX_HOLDERS]; MAX_INTERTIES]; 16]) {
    for (key, quantity) in records(sheet) {
        let key = Key::from_word(key);
        let pair = &mut sums[key.kind as usize][key.intertie as usize][key.holder as usize];
        *pair = pair.wrapping_add(u64::from(quantity) + u64::from(key.rank + key.years));
    }
}
