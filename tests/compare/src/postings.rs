//! Postings: T and the 480 numbers of the compiled library, against the text that the independent program
//! prints. The sheet is lent amid noise, the numbers are noise before; those that no line names stay.

use crate::faults::Change::{Behind, Granted, KwMore, NextRefusal, Refused};
use crate::lent::Lent;
use crate::library::Ours;
use crate::numbers::Numbers;
use crate::suites::Suite;
use crate::tally::{Floor, Tally};
use crate::zankurbe::POSTED_NUMBERS;
use crate::{layout, sheets};
use independent::answer::Answer;
use independent::beside;
use independent::share_out::MAX_HOLDERS;
use independent::sheet::MAX_INTERTIES;
use independent::year::MAX_TOTAL_KW;

pub const SUITE: Suite = Suite {
    name: "postings",
    seed: 7,
    cases: 20_000,
    floors: FLOORS,
    faults: &[
        ("post", KwMore),
        ("post", NextRefusal),
        ("post", Granted("lines")),
        ("post", Refused("lines")),
        ("post", Behind("lines")),
        ("post", Granted("sheet")),
    ],
    compare,
};

/// The numbers of a row: a column for each intertie, or for each holder.
const ROW: usize = 48;

/// The figures of the rows: those of an intertie's line, then those of a holder's line.
const FIGURES: [&str; 10] = [
    "limit",
    "outside",
    "E",
    "P",
    "N",
    "unassigned",
    "load share",
    "Load Share Quantity",
    "reserved",
    "Step 5 share",
];

/// The first row of the holders' lines.
const OF_HOLDERS: usize = 6;

/// The numbers before those lent, and behind them, which have to stay.
const AROUND: usize = 8;

/// The sorts of postings that a run has many of.
const FLOORS: &[Floor] = &[
    ("posted", 7_000),
    ("refused 1", 1_500),
    ("refused 2", 1_200),
    ("refused 3", 2_000),
    ("refused 4", 1_000),
    ("48 interties and 32 holders", 1_000),
    ("one intertie", 1_000),
    ("one holder", 800),
    ("T of 960,000,000", 100),
    ("T of 0", 150),
    ("outside, E and unassigned above 0 on an intertie", 1_200),
    ("P and N above 0 on an intertie", 2_000),
    ("all load shares 0", 300),
    ("a Load Share Quantity rounded down", 4_000),
    ("reserved above the Load Share Quantity", 4_000),
    ("a Step 5 share above 0", 3_500),
];

/// What a text says beside its figures.
struct Posting {
    answer: Answer,
    interties: usize,
    holders: usize,
}

/// Compares a posting, or says how the two differ.
fn compare(ours: &Ours, _: u64, r: &mut Numbers, tally: &mut Tally) -> Result<(), String> {
    let mut sheet = Lent::amid_noise(&sheets::any(r), Numbers::bytes, r);
    let sheet_before = sheet.clone();
    let numbers = r.wide_words(AROUND + POSTED_NUMBERS + AROUND);
    let mut lines = Lent::new(numbers, AROUND..AROUND + POSTED_NUMBERS);
    let mut expected = lines.clone();

    let posting = write(&beside::post(sheet.lent()), expected.lent_mut());
    let answer = ours.post(&mut sheet, &mut lines);
    let untouched = sheet.stays(&sheet_before);
    if answer == posting.answer && lines == expected && untouched {
        count(&posting, expected.lent(), tally);
        return Ok(());
    }
    Err(format!(
        "\n  library {answer:?}\n  independent {:?}\n  sheet untouched: {untouched}\n  {}",
        posting.answer,
        layout::differences(lines.all(), expected.all(), name)
    ))
}

/// Writes the figures of a text to their places: column by the line's number, row by the figure.
fn write(text: &str, numbers: &mut [u64]) -> Posting {
    let mut posting = Posting {
        answer: Answer::granted(0, 0),
        interties: 0,
        holders: 0,
    };
    for line in text.lines() {
        let (letter, figures) = line.split_once(' ').expect("a letter and figures");
        let figures = figures.split(' ').map(|figure| figure.parse::<u64>());
        let figures: Vec<u64> = figures.collect::<Result<_, _>>().expect("figures");
        let first_row = match letter {
            "T" => {
                posting.answer = Answer::granted(figures[0], 0);
                continue;
            }
            "R" => {
                posting.answer = Answer::refused(figures[0] as u32);
                continue;
            }
            "I" => {
                posting.interties += 1;
                0
            }
            _ => {
                posting.holders += 1;
                OF_HOLDERS
            }
        };
        for (row, &figure) in (first_row..).zip(&figures[1..]) {
            numbers[ROW * row + figures[0] as usize] = figure;
        }
    }
    posting
}

/// What the number at a place is.
fn name(at: usize) -> String {
    match at.checked_sub(AROUND) {
        Some(at) if at < POSTED_NUMBERS => format!("{} of {}", FIGURES[at / ROW], at % ROW),
        _ => "not lent".to_string(),
    }
}

/// Counts the sorts that a posting is of.
fn count(posting: &Posting, numbers: &[u64], tally: &mut Tally) {
    let Posting {
        answer,
        interties,
        holders,
    } = *posting;
    if answer.refusal != 0 {
        return tally.count(&format!("refused {}", answer.refusal), true);
    }
    let figure = |row: usize, column: usize| numbers[ROW * row + column];
    let on_an_intertie = |rows: &[usize]| {
        (0..interties).any(|intertie| rows.iter().all(|&row| figure(row, intertie) > 0))
    };
    let of_a_holder = |test: &dyn Fn(u64, u64, u64, u64) -> bool| {
        (0..holders).any(|h| test(figure(6, h), figure(7, h), figure(8, h), figure(9, h)))
    };
    let loads: u64 = (0..holders).map(|holder| figure(OF_HOLDERS, holder)).sum();
    let full_size = (interties, holders) == (MAX_INTERTIES, MAX_HOLDERS);
    tally.count("posted", true);
    tally.count("48 interties and 32 holders", full_size);
    tally.count("one intertie", interties == 1);
    tally.count("one holder", holders == 1);
    tally.count("T of 960,000,000", answer.kw == u64::from(MAX_TOTAL_KW));
    tally.count("T of 0", answer.kw == 0);
    tally.count(
        "outside, E and unassigned above 0 on an intertie",
        on_an_intertie(&[1, 2, 5]),
    );
    tally.count("P and N above 0 on an intertie", on_an_intertie(&[3, 4]));
    tally.count("all load shares 0", loads == 0);
    tally.count(
        "a Load Share Quantity rounded down",
        of_a_holder(&|load, _, _, _| answer.kw * load % loads.max(1) > 0),
    );
    tally.count(
        "reserved above the Load Share Quantity",
        of_a_holder(&|_, quantity, reserved, _| reserved > quantity),
    );
    tally.count(
        "a Step 5 share above 0",
        of_a_holder(&|_, _, _, share| share > 0),
    );
}
