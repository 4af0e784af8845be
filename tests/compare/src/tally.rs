//! Counts of what a suite's cases were. A sort of case that has become rare fails the suite, so that the
//! random cases can't lose it unseen.

use std::ops::AddAssign;

/// How many checks passed and how many failed.
#[derive(Default)]
pub struct Count {
    pub passed: u64,
    pub failed: u64,
}

impl Count {
    /// Counts a check.
    pub fn note(&mut self, is_passed: bool) {
        self.passed += u64::from(is_passed);
        self.failed += u64::from(!is_passed);
    }
}

impl AddAssign for Count {
    fn add_assign(&mut self, other: Count) {
        self.passed += other.passed;
        self.failed += other.failed;
    }
}

/// A sort of case and how many of it there are at least.
pub type Floor = (&'static str, u64);

pub struct Tally {
    floors: &'static [Floor],
    counts: Vec<u64>,
}

impl Tally {
    pub fn new(floors: &'static [Floor]) -> Tally {
        Tally {
            floors,
            counts: vec![0; floors.len()],
        }
    }

    /// Counts a case of the sort `sort`, if it is one.
    pub fn count(&mut self, sort: &str, is_one: bool) {
        let at = self.floors.iter().position(|floor| floor.0 == sort);
        self.counts[at.expect("a sort that the suite has a floor for")] += u64::from(is_one);
    }

    /// Adds the counts of other cases of the suite.
    pub fn add(&mut self, other: &Tally) {
        for (count, more) in self.counts.iter_mut().zip(&other.counts) {
            *count += more;
        }
    }

    /// Prints every count and says how many sorts reach their floor and how many don't.
    pub fn report(&self) -> Count {
        let mut reached = Count::default();
        for ((sort, least), count) in self.floors.iter().zip(&self.counts) {
            let note = if count < least { ": too few" } else { "" };
            println!("  {sort}: {count}, at least {least}{note}");
            reached.note(count >= least);
        }
        reached
    }
}
