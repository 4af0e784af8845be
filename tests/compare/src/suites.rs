//! The suites, and how their cases are run.

use crate::faults::{Fault, Plant};
use crate::library::Ours;
use crate::numbers::Numbers;
use crate::programs::Folder;
use crate::tally::{Count, Floor, Tally};
use crate::{
    carries, journals, lists, openings, postings, runs, sames, share_outs, sheet_refusals, singles,
    tables,
};
use std::ops::Range;
use std::panic::{catch_unwind, AssertUnwindSafe};
use std::sync::atomic::{AtomicU64, Ordering};
use std::thread;
use std::time::Instant;

/// A suite of cases.
pub struct Suite {
    pub name: &'static str,
    /// The gate's seed, which no other suite has, and how many cases the gate has.
    pub seed: u64,
    pub cases: u64,
    /// The sorts of its cases, each with how many of it the gate's cases have at least.
    pub floors: &'static [Floor],
    /// What is planted to see that the suite reports it.
    pub faults: &'static [Fault],
    /// Compares the case of a number, or says how library or program and independent program differ.
    pub compare: fn(&Ours, u64, &mut Numbers, &mut Tally) -> Result<(), String>,
}

/// All suites, in the order in which they run.
pub static SUITES: [Suite; 11] = [
    share_outs::SUITE,
    sheet_refusals::SUITE,
    openings::SUITE,
    lists::SUITE,
    singles::SUITE,
    runs::SUITE,
    postings::SUITE,
    sames::SUITE,
    carries::SUITE,
    journals::SUITE,
    tables::SUITE,
];

/// The differences that are shown of a run of cases; the others are counted.
pub const SHOWN: usize = 5;

/// What came of some cases.
pub struct Outcome {
    pub cases: u64,
    pub failed: u64,
    /// The first differences, with the numbers of their cases.
    pub differences: Vec<(u64, String)>,
    pub tally: Tally,
}

impl Outcome {
    pub fn new(suite: &Suite) -> Outcome {
        Outcome {
            cases: 0,
            failed: 0,
            differences: Vec::new(),
            tally: Tally::new(suite.floors),
        }
    }

    pub fn count(&self) -> Count {
        Count {
            passed: self.cases - self.failed,
            failed: self.failed,
        }
    }

    /// Takes in what came of a case.
    fn note(&mut self, number: u64, compared: Result<(), String>) {
        self.cases += 1;
        if let Err(difference) = compared {
            self.failed += 1;
            self.differences.push((number, difference));
            self.differences.truncate(SHOWN);
        }
    }

    /// Takes in what came of other cases.
    pub fn add(&mut self, other: Outcome) {
        self.cases += other.cases;
        self.failed += other.failed;
        self.tally.add(&other.tally);
        self.differences.extend(other.differences);
        self.differences.sort_unstable();
        self.differences.truncate(SHOWN);
    }
}

impl Suite {
    /// Runs cases, as many at a time as there are processors, and begins none after `until`.
    pub fn run(&self, seed: u64, cases: Range<u64>, until: Option<Instant>) -> Outcome {
        let next = AtomicU64::new(cases.start);
        let is_over = || until.is_some_and(|until| Instant::now() >= until);
        let take = || match is_over() {
            true => None,
            false => Some(next.fetch_add(1, Ordering::Relaxed)).filter(|it| *it < cases.end),
        };
        let workers = thread::available_parallelism().map_or(1, |count| count.get());
        let mut outcome = Outcome::new(self);
        thread::scope(|scope| {
            let work = |worker| scope.spawn(move || self.work(worker, seed, &take));
            let begun: Vec<_> = (0..workers).map(work).collect();
            for worker in begun {
                outcome.add(worker.join().expect("a worker that ends"));
            }
        });
        outcome
    }

    /// Runs the cases whose numbers a worker gets.
    fn work(&self, worker: usize, seed: u64, take: impl Fn() -> Option<u64>) -> Outcome {
        let folder = Folder::new(worker);
        let mut outcome = Outcome::new(self);
        while let Some(number) = take() {
            let ours = Ours {
                folder: &folder,
                plant: Plant::none(),
            };
            let compared = self.case(&ours, seed, number, &mut outcome.tally);
            outcome.note(number, compared);
        }
        outcome
    }

    /// Compares a case. One in which the comparison breaks off counts as different.
    pub fn case(
        &self,
        ours: &Ours,
        seed: u64,
        number: u64,
        tally: &mut Tally,
    ) -> Result<(), String> {
        let r = &mut Numbers::new(seed, number);
        let compare = AssertUnwindSafe(|| (self.compare)(ours, number, r, tally));
        catch_unwind(compare).unwrap_or_else(|_| Err("the comparison broke off".to_string()))
    }

    /// Prints differences, each with the command that compares its case again.
    pub fn show(&self, seed: u64, outcome: &Outcome) {
        let name = self.name;
        for (number, difference) in &outcome.differences {
            println!("{name}, case {number}: {difference}");
            println!("  again: target/cargo/release/compare '{name}' {seed} {number}");
        }
    }

    /// Prints how many cases agree.
    pub fn report(&self, seed: u64, outcome: &Outcome) {
        let Count { passed, .. } = outcome.count();
        println!(
            "{}, seed {seed}: {passed} of {} agree",
            self.name, outcome.cases
        );
    }
}
