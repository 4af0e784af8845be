//! The table: what was measured, the nanoseconds of both sides, their ratio and the aim.

use crate::timing::{self, Nanoseconds};
use std::time::Duration;

/// The ratio that every call aims at.
pub const AS_FAST: f64 = 1.0;
/// The ratio that contended share-outs and the orderly check aim at.
pub const FASTER: f64 = 0.9;

pub struct Table {
    /// The time to spend on a row.
    spend: Duration,
    missed: usize,
    aims: usize,
}

impl Table {
    pub fn new(spend: Duration) -> Table {
        println!("Nanoseconds of a call, best batch of each side; ratio is library / other side.");
        println!();
        println!(
            "{:<52} {:>11} {:>11} {:>7} {:>7} {:>5}",
            "what", "library", "other", "ratio", "median", "aim"
        );
        Table {
            spend,
            missed: 0,
            aims: 0,
        }
    }

    /// Measures the library against another side on so many inputs, and prints the row.
    pub fn row(
        &mut self,
        what: &str,
        aim: Option<f64>,
        inputs: usize,
        library: impl FnMut(usize) -> f64,
        other: impl FnMut(usize) -> f64,
    ) {
        let [ours, theirs] = timing::measure(self.spend, inputs, library, other);
        let ratio = ours.best / theirs.best;
        let verdict = match aim {
            None => String::new(),
            Some(aim) => {
                self.aims += 1;
                self.missed += usize::from(ratio > aim);
                format!("{aim:.1}{}", if ratio > aim { " missed" } else { "" })
            }
        };
        print_row(what, ours, theirs, &verdict);
    }

    pub fn finish(self) {
        println!();
        println!("{} of {} aims met", self.aims - self.missed, self.aims);
    }
}

fn print_row(what: &str, ours: Nanoseconds, theirs: Nanoseconds, verdict: &str) {
    println!(
        "{what:<52} {:>11.0} {:>11.0} {:>7.2} {:>7.2}   {verdict}",
        ours.best,
        theirs.best,
        ours.best / theirs.best,
        ours.median / theirs.median,
    );
}
