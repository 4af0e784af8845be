//! Journals: program `year` run on a sheet and a journal, against the independent program. All that it
//! prints is compared, and the sheet that it writes for the next year; of a bad line, its number
//! and what is bad.

use crate::calls::{any_call, theirs, Call};
use crate::faults::Change::{File, FileMissing, LineMissing, OtherNumber, Output, Said, Silent};
use crate::journal_texts::Journal;
use crate::library::Ours;
use crate::numbers::Numbers;
use crate::programs::{is_one_line, says, shown, Printed};
use crate::suites::Suite;
use crate::tally::{Floor, Tally};
use crate::{damages, lists, sheets};
use independent::journal::{self, Fault, Run, Why, MAX_CALLS};
use independent::sheet::{Record, HEADER_BYTES, LOAD_SHARE, MAX_RECORDS, RECORD_BYTES};
use independent::year::{Year, GRANT_WORDS, OPEN, STATE_WORDS};

pub const SUITE: Suite = Suite {
    name: "journals",
    seed: 10,
    cases: 1_800,
    floors: FLOORS,
    faults: &[
        (PROGRAM, Output),
        (PROGRAM, LineMissing),
        (PROGRAM, Silent),
        (PROGRAM, Said),
        (PROGRAM, OtherNumber("line")),
        (NEXT, File),
        (NEXT, FileMissing),
    ],
    compare,
};

/// One journal in so many has about as many calls as there may be.
const LONG: u64 = 120;

const PROGRAM: &str = "year";

/// The files of a case.
const SHEET: &str = "sheet";
const NEXT: &str = "next";

/// The most bytes that a sheet has.
const MOST_BYTES: usize = HEADER_BYTES + RECORD_BYTES * MAX_RECORDS;

/// What stands in the next year's file before, where it isn't missing.
const OLD: &[u8] = &[77; 9_000];

/// The sorts of journals that a run has many of.
const FLOORS: &[Floor] = &[
    ("journals that run", 1_000),
    ("of those, with carriage returns and newlines", 300),
    ("of those, with tabs", 500),
    ("of those, with comments", 500),
    ("of those, with leading zeros", 500),
    ("of those, without a newline at the end", 200),
    ("journals that reach stage 4", 600),
    ("trades granted", 8_000),
    ("requests granted", 6_000),
    ("moves granted", 2_500),
    ("locks granted", 700),
    ("takings granted", 1_000),
    ("closings granted", 2_000),
    ("closings that grant kW", 600),
    ("closings with passes", 300),
    ("calls refused 7", 8_000),
    ("calls refused 8", 8_000),
    ("calls refused 9", 5_000),
    ("calls refused 10", 8_000),
    ("calls refused 11", 1_000),
    ("calls refused 12", 1_500),
    ("calls refused 13", 1_500),
    ("journals of no calls", 15),
    ("journals of 16,384 calls", 2),
    ("sheets of more than 8,204 bytes", 20),
    ("sheets refused 1", 30),
    ("sheets refused 2", 25),
    ("sheets refused 3", 30),
    ("sheets refused 4", 20),
    ("names that are no call", 100),
    ("numbers missing", 40),
    ("words too many", 40),
    ("words that are no number", 25),
    ("numbers over 32 bits", 40),
    ("more than 16,384 calls", 3),
    ("bad lines past the first", 200),
    ("bad lines with a refused sheet", 40),
    ("next year's sheets written", 200),
    ("of those, with locks", 100),
    ("of those, over an old file", 100),
    ("next year's sheets refused 7", 150),
    ("next year's sheets refused 14", 40),
];

/// What is tried: a sheet, a journal's name and text, and whether a next year's file is named and there is
/// an old one.
struct Case {
    sheet: Vec<u8>,
    name: &'static str,
    journal: Vec<u8>,
    next: bool,
    old: bool,
}

/// Compares a journal, or says how the two differ.
fn compare(ours: &Ours, number: u64, r: &mut Numbers, tally: &mut Tally) -> Result<(), String> {
    let (sheet, calls) = if number % LONG == LONG - 1 {
        long(r)
    } else {
        any(r)
    };
    let mut journal = Journal::new(&calls, r);
    if r.once_in(4) {
        journal.damage(r);
    }
    let case = Case {
        sheet,
        name: r.one_of(&["journal", "year.txt", "the year's calls", "2031"]),
        journal: journal.bytes(r),
        next: r.once_in(2),
        old: r.once_in(2),
    };
    let (printed, next) = run(ours, &case)?;
    judge(&case, &printed, next, tally).map_err(|e| {
        format!(
            "{e}\n  journal {}\n  output {}\n  error {:?}",
            shown(&case.journal),
            shown(&printed.output),
            printed.error
        )
    })
}

/// Runs the program. What it printed, and the next year's file after it, if there is one.
fn run(ours: &Ours, case: &Case) -> Result<(Printed, Option<Vec<u8>>), String> {
    ours.write(SHEET, &case.sheet)?;
    ours.write(case.name, &case.journal)?;
    ours.remove(NEXT);
    if case.old {
        ours.write(NEXT, OLD)?;
    }
    let files = [SHEET, case.name, NEXT];
    let printed = ours.run(PROGRAM, &files[..2 + usize::from(case.next)], &[])?;
    Ok((printed, ours.read(NEXT)))
}

/// Holds what the program printed and wrote against the independent program, and counts the case.
fn judge(
    case: &Case,
    printed: &Printed,
    next: Option<Vec<u8>>,
    tally: &mut Tally,
) -> Result<(), String> {
    let unwritten = case.old.then(|| OLD.to_vec());
    let calls = match journal::read(&case.journal) {
        Ok(calls) => calls,
        Err(fault) => {
            count_fault(fault, case, tally);
            let is_silent = printed.output.is_empty() && next == unwritten;
            if is_silent && names(&printed.error, case.name, fault) {
                return Ok(());
            }
            return Err(format!("expected {fault:?}, nothing printed or written"));
        }
    };
    if case.sheet.len() > MOST_BYTES {
        tally.count("sheets of more than 8,204 bytes", true);
        let is_silent = printed.output.is_empty() && next == unwritten;
        if is_silent && is_one_line(&printed.error) && printed.error.starts_with("sheet: longer") {
            return Ok(());
        }
        return Err(
            "expected a line on a sheet that is too long, nothing printed or written".into(),
        );
    }
    let run = journal::run(&case.sheet, &calls);
    let expected = match &run {
        Ok(run) => run.text.clone(),
        Err(number) => format!("R {number}\n"),
    };
    if printed.output != expected.as_bytes() {
        return Err(format!("expected {}", shown(expected.as_bytes())));
    }
    let carried = match &run {
        Ok(run) if case.next => Some(journal::next_sheet(&case.sheet, &run.year)),
        _ => None,
    };
    let is_refused = matches!(carried, Some(Err(_)));
    if is_refused != is_one_line(&printed.error) || is_refused == printed.error.is_empty() {
        return Err(format!("next year's sheet is refused: {is_refused}"));
    }
    let written = carried.as_ref().and_then(|carried| carried.as_ref().ok());
    if next.as_ref() != written.or(unwritten.as_ref()) {
        return Err(format!("next year's sheet isn't {written:?}"));
    }
    match run {
        Ok(run) => {
            count_text(&case.journal, tally);
            count_calls(&calls, &run, tally);
            count_next(case, &run, carried, tally);
        }
        Err(number) => tally.count(&format!("sheets refused {number}"), true),
    }
    Ok(())
}

/// Whether the error is one line that gives the journal's name, the bad line and, in a word, what is bad.
fn names(error: &str, name: &str, fault: Fault) -> bool {
    let why = match fault.why {
        Why::NoCall => "a call",
        Why::Missing => "missing",
        Why::Surplus => "too many",
        Why::NoNumber => "read",
        Why::Over32Bits => "32 bits",
        Why::TooManyCalls => "16,384 calls",
    };
    is_one_line(error)
        && error.contains(name)
        && says(error, "line", fault.line)
        && error.contains(why)
}

/// A sheet, about one in seven refused, and calls as the lists have them.
fn any(r: &mut Numbers) -> (Vec<u8>, Vec<Call>) {
    let mut draft = lists::any_sheet(r);
    if r.once_in(6) {
        // No commitment ends, so that next year's sheet may get too many records or ranks.
        for Record { key, .. } in draft.records.iter_mut() {
            if key.kind > LOAD_SHARE {
                key.years = key.years.max(2);
            }
        }
    }
    let count = match r.below(40) {
        0 => 0,
        1 => 1 + r.below(19),
        _ => 20 + r.below(101),
    };
    let sheet = draft.bytes();
    let closings = count / r.one_of(&[1, 2, 4, 8, 8]);
    let calls = fitting(&sheet, count, closings.clamp(4, 60), r);
    let sheet = match r.below(40) {
        0..=3 => refused(r, |r| damages::damaged(draft.clone(), r)),
        4 => refused(r, sheets::any),
        5 => overlong(r),
        _ => sheet,
    };
    (sheet, calls)
}

/// A small sheet, and about as many calls as there may be.
fn long(r: &mut Numbers) -> (Vec<u8>, Vec<Call>) {
    let sheet = loop {
        let draft = lists::any_sheet(r);
        if draft.interties * draft.holders < 20 {
            break draft.bytes();
        }
    };
    let count = MAX_CALLS as u64 + r.one_of(&[0, 0, 1, 1, 300]);
    let calls = fitting(&sheet, count, 4_000, r);
    (sheet, calls)
}

/// Calls on the year of a sheet that stands, each fitting the year as it then is; one in `closings` is a
/// closing.
fn fitting(sheet: &[u8], count: u64, closings: u64, r: &mut Numbers) -> Vec<Call> {
    let mut year = year_of(sheet).expect("a sheet that stands");
    let mut make = |_| {
        let call = written(any_call(&year, closings, r));
        theirs(call, &mut year, STATE_WORDS, &mut [0; GRANT_WORDS]);
        call
    };
    (0..count).map(&mut make).collect()
}

/// The year that a sheet opens to.
fn year_of(sheet: &[u8]) -> Option<Box<Year>> {
    let mut year = Box::new(Year::blank());
    (year.open(sheet, STATE_WORDS).refusal == 0).then_some(year)
}

/// The first of the sheets that is refused.
fn refused(r: &mut Numbers, sheet: impl Fn(&mut Numbers) -> Vec<u8>) -> Vec<u8> {
    loop {
        let bytes = sheet(r);
        if year_of(&bytes).is_none() {
            return bytes;
        }
    }
}

/// As large a sheet as there may be, with bytes behind it.
fn overlong(r: &mut Numbers) -> Vec<u8> {
    let sheet = loop {
        let sheet = sheets::standing(r).bytes();
        if sheet.len() == MOST_BYTES {
            break sheet;
        }
    };
    let behind = r.one_of(&[1, 1, 2, 8, 5_000, 60_000]);
    [sheet, r.bytes(behind)].concat()
}

/// The call with numbers that a journal can have, and grants that are long enough.
fn written(call: Call) -> Call {
    let most = |kw: u64| kw.min(u32::MAX.into());
    match call {
        Call::Trade(seller, buyer, kw) => Call::Trade(seller, buyer, most(kw)),
        Call::Request(holder, intertie, kw) => Call::Request(holder, intertie, most(kw)),
        Call::Move(from, to, intertie, kw) => Call::Move(from, to, intertie, most(kw)),
        Call::Lock(holder, intertie, kw, term) => Call::Lock(holder, intertie, most(kw), term),
        Call::Take(holder, intertie, kw, day) => Call::Take(holder, intertie, most(kw), day),
        Call::Close(_) => Call::Close(GRANT_WORDS),
    }
}

/// Counts the sorts that a journal with a bad line is of.
fn count_fault(fault: Fault, case: &Case, tally: &mut Tally) {
    let sort = match fault.why {
        Why::NoCall => "names that are no call",
        Why::Missing => "numbers missing",
        Why::Surplus => "words too many",
        Why::NoNumber => "words that are no number",
        Why::Over32Bits => "numbers over 32 bits",
        Why::TooManyCalls => "more than 16,384 calls",
    };
    tally.count(sort, true);
    tally.count("bad lines past the first", fault.line > 1);
    tally.count(
        "bad lines with a refused sheet",
        year_of(&case.sheet).is_none(),
    );
}

/// Counts the ways that the text of a journal without a bad line is written.
fn count_text(text: &[u8], tally: &mut Tally) {
    let has = |pair: &[u8; 2]| text.windows(2).any(|bytes| bytes == pair);
    tally.count("journals that run", true);
    tally.count("of those, with carriage returns and newlines", has(b"\r\n"));
    tally.count("of those, with tabs", text.contains(&b'\t'));
    tally.count("of those, with comments", has(b"\n#"));
    tally.count("of those, with leading zeros", has(b" 0") && has(b"00"));
    tally.count(
        "of those, without a newline at the end",
        !text.ends_with(b"\n"),
    );
}

/// Counts the sorts that a journal without a bad line is of, and its calls.
fn count_calls(calls: &[journal::Call], run: &Run, tally: &mut Tally) {
    tally.count("journals that reach stage 4", run.year.stage == OPEN);
    tally.count("journals of no calls", calls.is_empty());
    tally.count("journals of 16,384 calls", calls.len() == MAX_CALLS);
    // The calls of a long journal would hide that the others have too few of a sort.
    if calls.len() == MAX_CALLS {
        return;
    }
    for (call, answer) in calls.iter().zip(&run.answers) {
        let sort = match (call, answer.refusal) {
            (journal::Call::Trade { .. }, 0) => "trades granted",
            (journal::Call::Request { .. }, 0) => "requests granted",
            (journal::Call::Close, 0) => "closings granted",
            (journal::Call::Take { .. }, 0) => "takings granted",
            (journal::Call::Move { .. }, 0) => "moves granted",
            (journal::Call::Lock { .. }, 0) => "locks granted",
            (_, number) => &format!("calls refused {number}"),
        };
        let closes = *call == journal::Call::Close;
        tally.count(sort, true);
        tally.count("closings that grant kW", closes && answer.kw > 0);
        tally.count("closings with passes", closes && answer.passes > 0);
    }
}

/// Counts the sorts that a next year's sheet is of.
fn count_next(case: &Case, run: &Run, carried: Option<Result<Vec<u8>, u32>>, tally: &mut Tally) {
    match carried {
        None => {}
        Some(Ok(_)) => {
            let locks = run.year.locked.iter().flatten().any(|&kw| kw > 0);
            tally.count("next year's sheets written", true);
            tally.count("of those, with locks", locks);
            tally.count("of those, over an old file", case.old);
        }
        Some(Err(number)) => tally.count(&format!("next year's sheets refused {number}"), true),
    }
}
