//! Compares the compiled library and the programs with the independent program. Prints a line for each suite and, last,
//! `N passed, M failed`; where something differs, the status is 1.

mod calls;
mod carries;
mod carry_inputs;
mod changes;
mod closings;
mod damages;
mod faults;
mod journal_texts;
mod journals;
mod layout;
mod lent;
mod library;
mod lists;
mod numbers;
mod openings;
mod planted;
mod postings;
mod programs;
mod runs;
mod sames;
mod share_outs;
mod sheet_refusals;
mod sheets;
mod singles;
mod soak;
mod suites;
mod table_texts;
mod tables;
mod tally;
mod years;
mod zankurbe;

use std::ops::{Range, RangeInclusive};
use std::process::ExitCode;
use suites::{Outcome, Suite, SUITES};
use tally::Count;

const USE: &str =
    "use: compare                     every suite with its own seed, then the planted faults
     compare SUITE SEED [CASE]   a suite's cases with a seed, or one of them
     compare soak SECONDS SEED   the suites in turn with new seeds, for so long";

/// The longest soak, some 11 days.
const MOST_SECONDS: u64 = 1_000_000;

fn main() -> ExitCode {
    let words: Vec<String> = std::env::args().skip(1).collect();
    let words: Vec<&str> = words.iter().map(String::as_str).collect();
    match compare(&words) {
        Ok(count) => {
            println!("{} passed, {} failed", count.passed, count.failed);
            ExitCode::from(u8::from(count.failed > 0))
        }
        Err(error) => {
            eprintln!("compare: {error}\n{USE}");
            ExitCode::from(2)
        }
    }
}

/// Does what the arguments ask for, or says what is wrong with them.
fn compare(words: &[&str]) -> Result<Count, String> {
    match *words {
        [] => Ok(gate()),
        ["soak", seconds, seed] => {
            let seconds = number(seconds, 1..=MOST_SECONDS)?;
            Ok(soak::soak(seconds, any_number(seed)?))
        }
        [suite, seed] => {
            let suite = named(suite)?;
            Ok(run(suite, any_number(seed)?, 0..suite.cases).count())
        }
        [suite, seed, case] => {
            let suite = named(suite)?;
            let case = number(case, 0..=suite.cases - 1)?;
            Ok(run(suite, any_number(seed)?, case..case + 1).count())
        }
        _ => Err("too few arguments, or too many".to_string()),
    }
}

/// The gate's run: every suite with its own seed and floors, and the planted faults.
fn gate() -> Count {
    println!("library version {}", zankurbe::version());
    let mut count = Count::default();
    for suite in &SUITES {
        let outcome = run(suite, suite.seed, 0..suite.cases);
        count += outcome.count();
        count += outcome.tally.report();
    }
    count += planted::report();
    count
}

/// Runs cases of a suite, and prints the differences and how many agree.
fn run(suite: &Suite, seed: u64, cases: Range<u64>) -> Outcome {
    let outcome = suite.run(seed, cases, None);
    suite.show(seed, &outcome);
    suite.report(seed, &outcome);
    outcome
}

/// The suite of a name.
fn named(name: &str) -> Result<&'static Suite, String> {
    let names: Vec<&str> = SUITES.iter().map(|suite| suite.name).collect();
    let suite = SUITES.iter().find(|suite| suite.name == name);
    suite.ok_or_else(|| format!("no suite '{name}'; there are: {}", names.join(", ")))
}

fn any_number(word: &str) -> Result<u64, String> {
    number(word, 0..=u64::MAX)
}

/// A whole number of a range.
fn number(word: &str, range: RangeInclusive<u64>) -> Result<u64, String> {
    let (least, most) = (range.start(), range.end());
    let number = word.parse().ok().filter(|number| range.contains(number));
    number.ok_or_else(|| format!("'{word}' is no whole number from {least} to {most}"))
}
