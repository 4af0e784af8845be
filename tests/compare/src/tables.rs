//! Tables: the program that turns comma-separated text into a sheet and back, against the independent
//! program. Sheets are printed and read back, tables in other words are read, and of damaged ones the line,
//! the column and the sort of the first fault are compared.

use crate::faults::Change::{LineMissing, OtherNumber, Output, Said, Silent};
use crate::library::Ours;
use crate::numbers::Numbers;
use crate::programs::{is_one_line, says, shown, Printed};
use crate::suites::Suite;
use crate::table_texts::{any_sheet, Table};
use crate::tally::{Floor, Tally};
use independent::sheet::{Sheet, HEADER_BYTES, MAX_RECORDS, RECORD_BYTES};
use independent::table::{self, Fault, Why};

pub const SUITE: Suite = Suite {
    name: "tables",
    seed: 11,
    cases: 100 * (SHEETS + TABLES + DAMAGED),
    floors: FLOORS,
    faults: &[
        (PROGRAM, Output),
        (PROGRAM, LineMissing),
        (PROGRAM, Silent),
        (PROGRAM, Said),
        (PROGRAM, OtherNumber("line")),
        (PROGRAM, OtherNumber("column")),
    ],
    compare,
};

/// Of so many cases in a row, how many are sheets that are printed and read back, how many tables that are read, and how
/// many damaged ones.
const SHEETS: u64 = 11;
const TABLES: u64 = 6;
const DAMAGED: u64 = 7;

const PROGRAM: &str = "sheet";

/// The file of a sheet.
const SHEET: &str = "sheet";

/// The sorts of tables that a run has many of.
const FLOORS: &[Floor] = &[
    ("sheets printed and read back", 1_100),
    ("of those, standing", 500),
    ("of those, refused 2", 150),
    ("of those, refused 3", 100),
    ("of those, refused 4", 50),
    ("of those, of 1,024 records", 100),
    ("of those, of no records", 10),
    ("tables read", 600),
    ("of those, with carriage returns", 300),
    ("of those, with empty lines", 300),
    ("of those, with leading zeros", 300),
    ("of those, with kinds 1 to 3 by name", 100),
    ("of those, with kinds 4 to 6 by name", 100),
    ("of those, with kinds 1 to 6 by number", 100),
    ("of those, without a newline at the end", 100),
    ("tables with a fault", 500),
    ("of those, of no number or kind", 150),
    ("of those, of a number too large", 100),
    ("of those, of a field missing", 40),
    ("of those, of a field too many", 40),
    ("of those, of too many records", 10),
    ("of those, in line 1", 80),
    ("of those, in a later line", 300),
    ("of those, in column 1", 80),
    ("of those, in column 2", 60),
    ("of those, in column 3", 40),
    ("of those, in column 4", 30),
    ("of those, in column 5", 30),
    ("of those, in column 6", 30),
    ("of those, in column 7", 20),
];

/// Compares a sheet or a table, or says how the two differ.
fn compare(ours: &Ours, number: u64, r: &mut Numbers, tally: &mut Tally) -> Result<(), String> {
    let sort = number % (SHEETS + TABLES + DAMAGED);
    let sheet = any_sheet(r);
    if sort < SHEETS {
        return there_and_back(ours, &sheet, r, tally);
    }
    let mut table = Table::new(&sheet, r);
    if sort >= SHEETS + TABLES {
        table.damage(r);
    }
    let text = table.bytes(r);
    let printed = read(ours, &text, r)?;
    judge(&text, &printed, tally).map_err(|e| {
        format!(
            "{e}\n  table {}\n  output {}\n  error {:?}",
            shown(&text),
            shown(&printed.output),
            printed.error
        )
    })
}

/// Prints a sheet and reads what was printed: the text is the independent program's, the bytes are the
/// sheet's.
fn there_and_back(
    ours: &Ours,
    sheet: &[u8],
    r: &mut Numbers,
    tally: &mut Tally,
) -> Result<(), String> {
    let expected = table::print(sheet).expect("a sheet that refusal 1 lets pass");
    ours.write(SHEET, sheet)?;
    let text = ours.run(PROGRAM, &[SHEET], &[])?;
    if text.output != expected.as_bytes() || !text.error.is_empty() {
        return Err(format!(
            "printed {}\n  error {:?}\n  expected {}",
            shown(&text.output),
            text.error,
            shown(expected.as_bytes())
        ));
    }
    let back = read(ours, &text.output, r)?;
    if back.output != sheet || !back.error.is_empty() {
        return Err(format!("read back otherwise, error {:?}", back.error));
    }
    count_sheet(sheet, tally);
    Ok(())
}

/// Reads a table, given whole or in two parts.
fn read(ours: &Ours, text: &[u8], r: &mut Numbers) -> Result<Printed, String> {
    let (first, second) = text.split_at(r.index(text.len() + 1));
    if r.once_in(2) {
        ours.run(PROGRAM, &[], &[text])
    } else {
        ours.run(PROGRAM, &[], &[first, second])
    }
}

/// Holds what the program made of a table against the independent program, and counts the table.
fn judge(text: &[u8], printed: &Printed, tally: &mut Tally) -> Result<(), String> {
    match table::read(text) {
        Ok(bytes) => {
            count_text(text, tally);
            if printed.output == bytes && printed.error.is_empty() {
                return Ok(());
            }
            Err(format!("expected {bytes:?}"))
        }
        Err(fault) => {
            count_fault(fault, tally);
            if printed.output.is_empty() && names(&printed.error, fault) {
                return Ok(());
            }
            Err(format!("expected {fault:?}"))
        }
    }
}

/// Whether the error is one line that gives a fault's line, its column and, in a word, what it is.
fn names(error: &str, fault: Fault) -> bool {
    let why = match fault.why {
        Why::NoNumber => "not a",
        Why::TooLarge => "too large",
        Why::Missing => "missing",
        Why::Surplus => "too many",
        Why::TooManyRecords => "1,024 records",
    };
    is_one_line(error)
        && says(error, "line", fault.line)
        && says(error, "column", fault.column)
        && error.contains(why)
}

/// Counts the sorts that a sheet is of.
fn count_sheet(sheet: &[u8], tally: &mut Tally) {
    let records = (sheet.len() - HEADER_BYTES) / RECORD_BYTES;
    tally.count("sheets printed and read back", true);
    tally.count("of those, of 1,024 records", records == MAX_RECORDS);
    tally.count("of those, of no records", records == 0);
    match Sheet::read(sheet) {
        Ok(_) => tally.count("of those, standing", true),
        Err(number) => tally.count(&format!("of those, refused {number}"), true),
    }
}

/// Counts the ways that the text of a table without a fault is written.
fn count_text(text: &[u8], tally: &mut Tally) {
    let has = |part: &[u8]| text.windows(part.len()).any(|bytes| bytes == part);
    tally.count("tables read", true);
    tally.count("of those, with carriage returns", has(b"\r\n"));
    tally.count("of those, with empty lines", has(b"\n\n") || has(b"\n\r\n"));
    tally.count("of those, with leading zeros", has(b",00"));
    tally.count(
        "of those, with kinds 1 to 3 by name",
        has(b"\nlimit,") && has(b"\noutside,") && has(b"\nload,"),
    );
    tally.count(
        "of those, with kinds 4 to 6 by name",
        has(b"\nexisting,") && has(b"\nprera,") && has(b"\nnewuse,"),
    );
    tally.count(
        "of those, with kinds 1 to 6 by number",
        (1..=6).all(|kind| has(format!("\n{kind},").as_bytes())),
    );
    tally.count(
        "of those, without a newline at the end",
        !text.ends_with(b"\n"),
    );
}

/// Counts the sorts that a table with a fault is of.
fn count_fault(fault: Fault, tally: &mut Tally) {
    let why = match fault.why {
        Why::NoNumber => "of those, of no number or kind",
        Why::TooLarge => "of those, of a number too large",
        Why::Missing => "of those, of a field missing",
        Why::Surplus => "of those, of a field too many",
        Why::TooManyRecords => "of those, of too many records",
    };
    tally.count("tables with a fault", true);
    tally.count(why, true);
    tally.count("of those, in line 1", fault.line == 1);
    tally.count("of those, in a later line", fault.line > 1);
    tally.count(&format!("of those, in column {}", fault.column), true);
}
