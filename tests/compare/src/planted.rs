//! Faults planted in what library and programs left: a suite that doesn't report one is no evidence.

use crate::faults::{self, Fault, Plant};
use crate::library::Ours;
use crate::programs::Folder;
use crate::suites::{Suite, SUITES};
use crate::tally::{Count, Tally};

/// In how many cases each fault is planted, and among how many cases those are looked for.
const PLANTED: u64 = 5;
const LOOKED_AT: u64 = 1_000;

/// Plants every fault of every suite in some of the gate's cases. Prints how often each was reported, and says how many
/// were reported whenever they were planted, and how many not.
pub fn report() -> Count {
    let folder = Folder::new(0);
    let mut count = Count::default();
    for suite in &SUITES {
        for &fault in suite.faults {
            let (planted, reported) = plant(suite, fault, &folder);
            let is_reported = planted > 0 && reported == planted;
            let note = if is_reported { "" } else { ": too few" };
            println!(
                "planted in {}, {}: reported {reported} of {planted} times{note}",
                suite.name,
                faults::name(fault)
            );
            count.note(is_reported);
        }
    }
    count
}

/// In how many cases a fault changed something, and how many of those the suite reported.
fn plant(suite: &Suite, fault: Fault, folder: &Folder) -> (u64, u64) {
    let (mut planted, mut reported) = (0, 0);
    for number in 0..suite.cases.min(LOOKED_AT) {
        let ours = Ours {
            folder,
            plant: Plant::new(Some(fault), number),
        };
        let compared = suite.case(&ours, suite.seed, number, &mut Tally::new(suite.floors));
        if ours.plant.is_planted() {
            planted += 1;
            reported += u64::from(compared.is_err());
        }
        if planted == PLANTED {
            break;
        }
    }
    (planted, reported)
}
