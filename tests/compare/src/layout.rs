//! The place of every named word of the year's state, as docs/STATE.md gives it: the words stand in rows
//! of 48, and a field of the pairs has a row for each holder.

use crate::numbers::Numbers;
use independent::share_out::MAX_HOLDERS;
use independent::year::{PerHolder, PerIntertie, PerPair, Year};
use std::fmt::Display;

/// The words of a row.
const ROW: usize = 48;

/// How many words that differ are shown.
const SHOWN: usize = 10;

/// A single word of the state: its name, its row and column, and its value.
type Word = (&'static str, usize, usize, fn(&Year) -> u32);

/// A field of the state: its name, its row (of a field of the pairs, the row of holder 0) and its words, to
/// read and to write.
type Field<Words> = (
    &'static str,
    usize,
    fn(&Year) -> &Words,
    fn(&mut Year) -> &mut Words,
);

/// Single words: the sizes, the stage and the last taking's day.
const SINGLE: [Word; 4] = [
    ("interties", 0, 0, |year| year.interties),
    ("holders", 0, 1, |year| year.holders),
    ("stage", 103, 0, |year| year.stage),
    ("last taking's day", 103, 1, |year| year.last_taking_day),
];

/// Fields of the interties: the column is the intertie.
const PER_INTERTIE: [Field<PerIntertie>; 3] = [
    ("limit", 1, |year| &year.limit, |year| &mut year.limit),
    ("outside", 2, |year| &year.outside, |year| &mut year.outside),
    (
        "unassigned",
        104,
        |year| &year.unassigned,
        |year| &mut year.unassigned,
    ),
];

/// Fields of the holders: the column is the holder.
const PER_HOLDER: [Field<PerHolder>; 8] = [
    (
        "load share",
        3,
        |year| &year.load_share,
        |year| &mut year.load_share,
    ),
    (
        "Step 5 share",
        4,
        |year| &year.step5_share,
        |year| &mut year.step5_share,
    ),
    (
        "Step 7 total",
        5,
        |year| &year.step7_total,
        |year| &mut year.step7_total,
    ),
    (
        "reserved",
        6,
        |year| &year.reserved,
        |year| &mut year.reserved,
    ),
    (
        "unplaced",
        105,
        |year| &year.unplaced,
        |year| &mut year.unplaced,
    ),
    (
        "sellers",
        106,
        |year| &year.sellers,
        |year| &mut year.sellers,
    ),
    (
        "last taking's week",
        107,
        |year| &year.last_taking_week,
        |year| &mut year.last_taking_week,
    ),
    (
        "takings",
        108,
        |year| &year.takings,
        |year| &mut year.takings,
    ),
];

/// Fields of the pairs: the row is the holder's, the column is the intertie.
const PER_PAIR: [Field<PerPair>; 8] = [
    ("E", 7, |year| &year.existing, |year| &mut year.existing),
    ("P", 39, |year| &year.pre_ra, |year| &mut year.pre_ra),
    ("N", 71, |year| &year.new_use, |year| &mut year.new_use),
    ("placed", 109, |year| &year.placed, |year| &mut year.placed),
    ("taken", 141, |year| &year.taken, |year| &mut year.taken),
    ("locked", 173, |year| &year.locked, |year| &mut year.locked),
    (
        "lock term",
        205,
        |year| &year.lock_term,
        |year| &mut year.lock_term,
    ),
    (
        "pending",
        237,
        |year| &year.pending,
        |year| &mut year.pending,
    ),
];

/// The place of word `column` of row `row`.
const fn place(row: usize, column: usize) -> usize {
    ROW * row + column
}

/// Writes a year's named words, for its own sizes, to their places; every other word stays.
pub fn write(year: &Year, words: &mut [u32]) {
    let (interties, holders) = (year.interties as usize, year.holders as usize);
    for (_, row, column, word) in SINGLE {
        words[place(row, column)] = word(year);
    }
    for (_, row, field, _) in PER_INTERTIE {
        words[place(row, 0)..][..interties].copy_from_slice(&field(year)[..interties]);
    }
    for (_, row, field, _) in PER_HOLDER {
        words[place(row, 0)..][..holders].copy_from_slice(&field(year)[..holders]);
    }
    for (_, first, field, _) in PER_PAIR {
        for (intertie, of_holders) in field(year)[..interties].iter().enumerate() {
            for (holder, &word) in of_holders[..holders].iter().enumerate() {
                words[place(first + holder, intertie)] = word;
            }
        }
    }
}

/// The year that any 16,000 words are, whatever they hold.
pub fn read(words: &[u32]) -> Box<Year> {
    let mut year = Box::new(Year::blank());
    year.interties = words[place(0, 0)];
    year.holders = words[place(0, 1)];
    year.stage = words[place(103, 0)];
    year.last_taking_day = words[place(103, 1)];
    for (_, row, _, field) in PER_INTERTIE {
        let of_interties = field(&mut year);
        let count = of_interties.len();
        of_interties.copy_from_slice(&words[place(row, 0)..][..count]);
    }
    for (_, row, _, field) in PER_HOLDER {
        let of_holders = field(&mut year);
        let count = of_holders.len();
        of_holders.copy_from_slice(&words[place(row, 0)..][..count]);
    }
    for (_, first, _, field) in PER_PAIR {
        for (intertie, of_holders) in field(&mut year).iter_mut().enumerate() {
            for (holder, word) in of_holders.iter_mut().enumerate() {
                *word = words[place(first + holder, intertie)];
            }
        }
    }
    year
}

/// What the word at a place is, in a year of any size.
pub fn name(at: usize) -> String {
    let (row, column) = (at / ROW, at % ROW);
    if let Some((name, ..)) = SINGLE.iter().find(|word| (word.1, word.2) == (row, column)) {
        return (*name).to_string();
    }
    if let Some((name, ..)) = PER_INTERTIE.iter().find(|field| field.1 == row) {
        return format!("{name} of intertie {column}");
    }
    if let Some((name, ..)) = PER_HOLDER.iter().find(|field| field.1 == row) {
        return format!("{name} of holder {column}");
    }
    match PER_PAIR
        .iter()
        .find(|field| (field.1..field.1 + MAX_HOLDERS).contains(&row))
    {
        Some((name, first, ..)) => format!("{name} of holder {} on intertie {column}", row - first),
        None => "no named word".to_string(),
    }
}

/// The place of a named word of a year of `interties` and `holders`, each sort of word alike.
pub fn any_place(interties: usize, holders: usize, r: &mut Numbers) -> usize {
    let fields = SINGLE.len() + PER_INTERTIE.len() + PER_HOLDER.len() + PER_PAIR.len();
    let mut field = r.index(fields);
    if let Some((_, row, column, _)) = SINGLE.get(field) {
        return place(*row, *column);
    }
    field -= SINGLE.len();
    if let Some((_, row, ..)) = PER_INTERTIE.get(field) {
        return place(*row, r.index(interties));
    }
    field -= PER_INTERTIE.len();
    if let Some((_, row, ..)) = PER_HOLDER.get(field) {
        return place(*row, r.index(holders));
    }
    let first = PER_PAIR[field - PER_HOLDER.len()].1;
    place(first + r.index(holders), r.index(interties))
}

/// The words that the library and the independent program differ in: how many, and the first few by place
/// and name.
pub fn differences<Word: PartialEq + Display>(
    ours: &[Word],
    theirs: &[Word],
    name: impl Fn(usize) -> String,
) -> String {
    let unlike = || (0..ours.len()).filter(|&at| ours[at] != theirs[at]);
    let shown: String = unlike()
        .take(SHOWN)
        .map(|at| {
            format!(
                "\n    word {at}, {}: library {}, independent {}",
                name(at),
                ours[at],
                theirs[at]
            )
        })
        .collect();
    format!("{} words differ{shown}", unlike().count())
}
