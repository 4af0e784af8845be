//! The suites in turn, again and again with new seeds, for as long as asked.

use crate::numbers::Numbers;
use crate::suites::{Outcome, Suite, SHOWN, SUITES};
use crate::tally::Count;
use std::time::{Duration, Instant};

/// The longest turn of a suite.
const TURN: Duration = Duration::from_millis(250);

/// A suite's cases with one seed, as far as they have run.
struct Round {
    suite: &'static Suite,
    seeds: Numbers,
    seed: u64,
    outcome: Outcome,
}

impl Round {
    /// The first round of a suite in a soak of this seed.
    fn first(suite: &'static Suite, seed: u64) -> Round {
        Round::next(suite, Numbers::new(seed, suite.seed))
    }

    /// A round with the next of a suite's seeds.
    fn next(suite: &'static Suite, mut seeds: Numbers) -> Round {
        Round {
            suite,
            seed: seeds.below(1 << 32),
            seeds,
            outcome: Outcome::new(suite),
        }
    }

    /// Runs further cases, until a time or to the last one, and shows the differences, unless there were many before.
    fn turn(&mut self, until: Instant) {
        let cases = self.outcome.cases..self.suite.cases;
        let outcome = self.suite.run(self.seed, cases, Some(until));
        if self.outcome.differences.len() < SHOWN {
            self.suite.show(self.seed, &outcome);
        }
        self.outcome.add(outcome);
    }

    fn is_over(&self) -> bool {
        self.outcome.cases == self.suite.cases
    }

    /// Says how many cases agree, if any ran.
    fn report(&self) -> Count {
        if self.outcome.cases > 0 {
            self.suite.report(self.seed, &self.outcome);
        }
        self.outcome.count()
    }
}

/// Runs the suites in turn for so many seconds, each with seeds of its own that follow from `seed`. Answers how many cases
/// agree and how many don't.
pub fn soak(seconds: u64, seed: u64) -> Count {
    let time = Duration::from_secs(seconds);
    let end = Instant::now() + time;
    let turn = TURN.min(time / SUITES.len() as u32);
    let mut rounds: Vec<Round> = SUITES
        .iter()
        .map(|suite| Round::first(suite, seed))
        .collect();
    let mut count = Count::default();
    for at in (0..SUITES.len()).cycle() {
        let now = Instant::now();
        if now >= end {
            break;
        }
        rounds[at].turn(end.min(now + turn));
        if rounds[at].is_over() {
            count += rounds[at].report();
            let Round { suite, seeds, .. } = rounds.remove(at);
            rounds.insert(at, Round::next(suite, seeds));
        }
    }
    for round in &rounds {
        count += round.report();
    }
    count
}
