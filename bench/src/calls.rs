//! The orderly check, the calls of the year, closings and carry, on full years.

use crate::sheets::{self, CROWDED};
use crate::table::{Table, AS_FAST, FASTER};
use crate::timing::time;
use crate::years::{self, Both};
use crate::{layout, zankurbe};
use independent::answer::Answer;
use independent::beside;
use independent::share_out::MAX_HOLDERS;
use independent::sheet::{HEADER_BYTES, MAX_INTERTIES, MAX_RECORDS, RECORD_BYTES};
use independent::year::{Year, GRANT_WORDS, STATE_WORDS};
use std::hint::black_box;

/// How many years of a stage the batches rotate over.
const YEARS: usize = 4;

/// The calls of a batch on one year.
const CALLS: usize = 24;

/// The most bytes that a sheet has.
const SHEET_BYTES: usize = HEADER_BYTES + RECORD_BYTES * MAX_RECORDS;

pub fn measure(table: &mut Table) {
    let all = |year: &dyn Fn(usize) -> Both| (0..YEARS).map(year).collect::<Vec<Both>>();
    let trading = all(&|number| years::trading(number));
    let requesting = all(&|number| years::requesting(number));
    let requested = all(&|number| years::requested(number, false));
    let crowded = all(&|number| years::requested(number, true));
    let open = all(&|number| years::open(number, 64, 97));
    let few_locked = all(&|number| years::open(number, 64, 1));

    for (what, inputs) in [
        ("orderly check, stage 1", &trading),
        ("orderly check, stage 2", &requested),
        ("orderly check, stage 4, 64 locks spread", &open),
        ("orderly check, stage 4, 64 locks on few interties", &few_locked),
    ] {
        orderly(table, what, inputs);
    }
    single_calls(table, &trading, &requesting, [&open[..], &few_locked[..]]);
    for (what, inputs) in [
        ("closing, 48 x 32 pending, about half contended", &requested),
        ("closing, 48 x 32 pending, all contended", &crowded),
    ] {
        closings(table, what, inputs);
    }
    carries(table, &open);
}

/// The orderly check alone.
fn orderly(table: &mut Table, what: &str, years: &[Both]) {
    for both in years {
        assert_eq!(zankurbe::state_refusal(both.words()), 0);
        assert!(both.year().is_orderly());
    }
    table.row(
        what,
        Some(FASTER),
        years.len(),
        |input| {
            let words = years[input].words();
            black_box(zankurbe::state_refusal(black_box(words)));
            time(CALLS, || {
                (0..CALLS)
                    .map(|_| zankurbe::state_refusal(black_box(words)))
                    .sum::<u32>()
            })
        },
        |input| {
            let year = years[input].year();
            black_box(black_box(year).is_orderly());
            time(CALLS, || {
                (0..CALLS).filter(|_| black_box(year).is_orderly()).count()
            })
        },
    );
}

/// Holder and intertie of call `n`; on the crowded interties, the first ones, nothing is left.
fn pair(n: usize) -> (u32, u32) {
    let n = black_box(n);
    let (holder, intertie) = (
        7 * n % MAX_HOLDERS,
        MAX_INTERTIES - 1 - 5 * n % (MAX_INTERTIES - CROWDED),
    );
    (holder as u32, intertie as u32)
}

fn next(holder: u32) -> u32 {
    (holder + 1) % MAX_HOLDERS as u32
}

fn single_calls(
    table: &mut Table,
    trading: &[Both],
    requesting: &[Both],
    [open, few_locked]: [&[Both]; 2],
) {
    calls(
        table,
        "trade",
        trading,
        |words, n| zankurbe::trade(words, pair(n).0, next(pair(n).0), 100),
        |year, n| year.trade(STATE_WORDS, pair(n).0, next(pair(n).0), 100),
    );
    calls(
        table,
        "request",
        requesting,
        |words, n| zankurbe::request(words, pair(n).0, pair(n).1, 10),
        |year, n| year.request(STATE_WORDS, pair(n).0, pair(n).1, 10),
    );
    calls(
        table,
        "taking",
        open,
        |words, n| zankurbe::take(words, pair(n).0, pair(n).1, 10, n as u32),
        |year, n| year.take(STATE_WORDS, pair(n).0, pair(n).1, 10, n as u32),
    );
    calls(
        table,
        "move",
        open,
        |words, n| zankurbe::move_kw(words, pair(n).0, next(pair(n).0), pair(n).1, 1),
        |year, n| year.move_kw(STATE_WORDS, pair(n).0, next(pair(n).0), pair(n).1, 1),
    );
    // Intertie 47 and those before it have no lock yet.
    let free = |n: usize| (pair(n).0, (MAX_INTERTIES - 1 - n % 8) as u32);
    calls(
        table,
        "lock",
        few_locked,
        |words, n| zankurbe::lock(words, free(n).0, free(n).1, 1, 3),
        |year, n| year.lock(STATE_WORDS, free(n).0, free(n).1, 1, 3),
    );
}

/// A batch of calls on a year that is put back before each batch.
fn calls(
    table: &mut Table,
    what: &str,
    years: &[Both],
    ours: impl Fn(&mut [u32], usize) -> Answer,
    theirs: impl Fn(&mut Year, usize) -> Answer,
) {
    let mut lent = Both::blank();
    let (year, words) = lent.sides();
    for both in years {
        words.copy_from_slice(both.words());
        year.clone_from(both.year());
        for n in 0..CALLS {
            let answer = theirs(year, n);
            assert_eq!(answer.refusal, 0, "{what} {n}");
            assert_eq!(ours(words, n), answer);
        }
        assert_same(words, year, both);
    }
    table.row(
        what,
        Some(AS_FAST),
        years.len(),
        |input| {
            words.copy_from_slice(years[input].words());
            time(CALLS, || {
                (0..CALLS)
                    .map(|n| ours(black_box(&mut *words), n).kw)
                    .sum::<u64>()
            })
        },
        |input| {
            year.clone_from(years[input].year());
            time(CALLS, || {
                (0..CALLS)
                    .map(|n| theirs(black_box(&mut *year), n).kw)
                    .sum::<u64>()
            })
        },
    );
}

/// That the words are those that the year has, on what they were before.
fn assert_same(words: &[u32], year: &Year, before: &Both) {
    let mut expected = before.words().to_vec();
    layout::write(year, &mut expected);
    assert_eq!(words, &expected[..]);
}

/// One closing for each batch; year and pending are put back before each.
fn closings(table: &mut Table, what: &str, years: &[Both]) {
    let mut lent = Both::blank();
    let (year, words) = lent.sides();
    let mut grants = vec![0; GRANT_WORDS];
    let mut their_grants = vec![0; GRANT_WORDS];
    for both in years {
        words.copy_from_slice(both.words());
        year.clone_from(both.year());
        let answer = year.close(STATE_WORDS, &mut their_grants);
        assert!(answer.refusal == 0 && answer.passes >= 20);
        assert_eq!(zankurbe::close(words, &mut grants), answer);
        assert_eq!(grants, their_grants);
        assert_same(words, year, both);
    }
    table.row(
        what,
        Some(AS_FAST),
        years.len(),
        |input| {
            words.copy_from_slice(years[input].words());
            time(1, || {
                zankurbe::close(black_box(&mut *words), black_box(&mut grants))
            })
        },
        |input| {
            year.clone_from(years[input].year());
            time(1, || {
                black_box(&mut *year).close(STATE_WORDS, black_box(&mut their_grants))
            })
        },
    );
}

/// Next year's sheet from a full sheet and a state with 64 locks.
fn carries(table: &mut Table, years: &[Both]) {
    let full: Vec<Vec<u8>> = (0..years.len()).map(sheets::full).collect();
    let mut output = vec![0; SHEET_BYTES];
    let mut their_output = vec![0; SHEET_BYTES];
    for (both, sheet) in years.iter().zip(&full) {
        let answer = beside::carry(sheet, both.year(), STATE_WORDS, &mut their_output);
        assert_eq!(answer.refusal, 0);
        assert_eq!(zankurbe::carry(sheet, both.words(), &mut output), answer);
        assert_eq!(output, their_output);
    }
    table.row(
        "carry, a full sheet and 64 locks",
        Some(AS_FAST),
        years.len(),
        |input| {
            let (sheet, words) = (&full[input], years[input].words());
            time(2, || {
                for _ in 0..2 {
                    black_box(zankurbe::carry(
                        black_box(sheet),
                        black_box(words),
                        black_box(&mut output),
                    ));
                }
            })
        },
        |input| {
            let (sheet, year) = (&full[input], years[input].year());
            time(2, || {
                for _ in 0..2 {
                    black_box(beside::carry(
                        black_box(sheet),
                        black_box(year),
                        STATE_WORDS,
                        black_box(&mut their_output),
                    ));
                }
            })
        },
    );
}
