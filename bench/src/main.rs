//! Measures the compiled library against the independent program on the same inputs, and prints a table.
//! Every comparison is made once for equality before it is timed. `--quick` spends little time on each.

#[allow(dead_code)]
#[path = "../../tests/compare/src/layout.rs"]
mod layout;
#[allow(dead_code)]
#[path = "../../tests/compare/src/numbers.rs"]
mod numbers;
#[allow(dead_code)]
#[path = "../../tests/compare/src/zankurbe.rs"]
mod zankurbe;

mod calls;
mod postings;
mod share_outs;
mod sharing;
mod sheet_reading;
mod sheets;
mod table;
mod timing;
mod years;

use std::time::Duration;
use table::Table;

fn main() {
    let quick = match std::env::args().nth(1).as_deref() {
        None => false,
        Some("--quick") => true,
        Some(_) => {
            eprintln!("bench: the only option is --quick");
            std::process::exit(2);
        }
    };
    let mut table = Table::new(Duration::from_millis(if quick { 30 } else { 1_500 }));
    sheet_reading::measure(&mut table);
    sharing::measure(&mut table);
    calls::measure(&mut table);
    postings::measure(&mut table);
    table.finish();
}
