//! A small year through the Rust declarations and the archive: the sheet of case i of the rules' examples,
//! opened, traded, closed, taken, locked and carried. Every answer is compared with the one worked out by
//! hand and with the independent program's, and every lent word with what the independent program has. Runs
//! on as much stack as the header says. Prints each check that fails and, last, 'N passed, M failed'.
#![deny(warnings)]

#[allow(dead_code)]
#[path = "../../compare/src/layout.rs"]
mod layout;
#[allow(dead_code)]
#[path = "../../compare/src/numbers.rs"]
mod numbers;
#[path = "../../compare/src/zankurbe.rs"]
mod zankurbe;

use independent::answer::Answer;
use independent::beside;
use independent::share_out::share_out;
use independent::sheet::{
    Key, EXISTING_CONTRACT, LIMIT, LOAD_SHARE, NEW_USE_COMMITMENT, OUTSIDE_RIGHT,
};
use independent::year::{Year, GRANT_WORDS, STATE_WORDS};
use zankurbe::POSTED_NUMBERS;

/// The stack that the header says a call takes at most.
const STACK_BYTES: usize = 512 * 1024;

/// What lent words hold where nothing was written.
const NOISE: u32 = 0x5A5A_5A5A;

/// Counts the checks.
#[derive(Default)]
struct Checks {
    passed: u64,
    failed: u64,
}

impl Checks {
    fn check(&mut self, what: &str, holds: bool) {
        if holds {
            self.passed += 1;
        } else {
            self.failed += 1;
            println!("year.rs: {what}");
        }
    }
}

/// A year on both sides: the library's words and grants, and the independent program's.
struct Both {
    words: Vec<u32>,
    grants: Vec<u32>,
    year: Box<Year>,
    their_grants: Vec<u32>,
}

impl Both {
    /// Words of noise, and a year that isn't opened.
    fn new() -> Both {
        Both {
            words: vec![NOISE; STATE_WORDS + 4],
            grants: vec![NOISE; GRANT_WORDS + 4],
            year: Box::new(Year::blank()),
            their_grants: vec![NOISE; GRANT_WORDS + 4],
        }
    }

    /// Makes a call on both sides, which answer as expected, and compares every lent word.
    fn call(
        &mut self,
        checks: &mut Checks,
        what: &str,
        expected: Answer,
        ours: impl FnOnce(&mut [u32], &mut [u32]) -> Answer,
        theirs: impl FnOnce(&mut Year, &mut [u32]) -> Answer,
    ) {
        let mut words = self.words.clone();
        let their_answer = theirs(&mut self.year, &mut self.their_grants);
        if their_answer.refusal == 0 {
            layout::write(&self.year, &mut words);
        }
        let our_answer = ours(&mut self.words, &mut self.grants);
        checks.check(
            &format!("{what}: library {our_answer:?}"),
            our_answer == expected,
        );
        checks.check(
            &format!("{what}: independent {their_answer:?}"),
            their_answer == expected,
        );
        checks.check(
            &format!("{what}: state and grants"),
            self.words == words && self.grants == self.their_grants,
        );
    }
}

/// Makes a call of the same name on both sides; in a closing the grants come last.
macro_rules! call {
    ($both:ident, $checks:ident, $expected:expr, $name:ident($($number:expr),*)) => {
        $both.call(
            $checks,
            stringify!($name($($number),*)),
            $expected,
            |words, _| zankurbe::$name(words, $($number),*),
            |year, _| year.$name(STATE_WORDS, $($number),*),
        )
    };
}

fn granted(kw: u64) -> Answer {
    Answer::granted(kw, 0)
}

fn refused(number: u32) -> Answer {
    Answer::refused(number)
}

/// A record of a sheet: kind, holder, rank and years on intertie 0, and the quantity.
type Record = (u32, u32, u32, u32, u32);

/// The bytes of a sheet of one intertie and three holders.
fn sheet(records: &[Record]) -> Vec<u8> {
    let key = |&(kind, holder, rank, years, _): &Record| {
        let intertie = 0;
        Key {
            kind,
            holder,
            intertie,
            rank,
            years,
        }
        .to_word()
    };
    let header = [1, 3, records.len() as u32];
    let quantities = records.iter().map(|record| record.4);
    header
        .into_iter()
        .chain(records.iter().map(key))
        .chain(quantities)
        .flat_map(u32::to_le_bytes)
        .collect()
}

/// Case i of the rules' examples.
const CASE_I: [Record; 6] = [
    (LIMIT, 0, 0, 0, 110_000),
    (OUTSIDE_RIGHT, 0, 0, 0, 10_000),
    (LOAD_SHARE, 0, 0, 0, 50_000),
    (LOAD_SHARE, 1, 0, 0, 30_000),
    (LOAD_SHARE, 2, 0, 0, 20_000),
    (EXISTING_CONTRACT, 2, 0, 1, 30_000),
];

/// The locks of the year below, on next year's sheet.
const LOCKS: [Record; 2] = [
    (NEW_USE_COMMITMENT, 0, 1, 30, 10_000),
    (NEW_USE_COMMITMENT, 1, 1, 5, 19_687),
];

/// The calls of the year below that are granted, as words, and the kW of their answers.
const CALLS: [([u32; 6], u64); 14] = [
    ([1, 0, 2, NOISE, 10_000, 0], 10_000),
    ([3, NOISE, NOISE, NOISE, NOISE, NOISE], 0),
    ([2, 0, 0, NOISE, 20_000, 0], 20_000),
    ([2, 1, 0, NOISE, 26_250, 0], 26_250),
    ([2, 2, 0, NOISE, 10_000, 0], 10_000),
    ([3, NOISE, NOISE, NOISE, NOISE, NOISE], 56_250),
    ([5, 1, 2, 0, 6_250, 0], 6_250),
    ([2, 0, 0, NOISE, 3_750, 0], 3_750),
    ([3, NOISE, NOISE, NOISE, NOISE, NOISE], 3_750),
    ([4, 2, 0, 20, 4_000, 0], 4_000),
    ([4, 2, 0, 20, 10_000, 0], 6_000),
    ([5, 0, 1, 0, 750, 0], 750),
    ([6, 1, 0, 5, 19_687, 0], 19_687),
    ([6, 0, 0, 30, 10_000, 0], 10_000),
];

/// Opens case i, into too few words first.
fn open(both: &mut Both, checks: &mut Checks, bytes: &[u8]) {
    let mut open = |expected, lent: usize| {
        both.call(
            checks,
            &format!("open into {lent} words"),
            expected,
            |words, _| zankurbe::open(bytes, &mut words[..lent]),
            |year, _| year.open(bytes, lent),
        )
    };
    open(refused(5), STATE_WORDS - 1);
    open(granted(100_000), STATE_WORDS);
}

/// Closes the stage, with too few grants first.
fn close(both: &mut Both, checks: &mut Checks, expected: Answer) {
    for (lent, expected) in [(GRANT_WORDS - 1, refused(5)), (GRANT_WORDS, expected)] {
        both.call(
            checks,
            &format!("close with {lent} grants"),
            expected,
            |words, grants| zankurbe::close(words, &mut grants[..lent]),
            |year, grants| year.close(STATE_WORDS, &mut grants[..lent]),
        );
    }
}

/// The year, from the opening to the last lock.
fn calls(both: &mut Both, checks: &mut Checks) {
    call!(both, checks, refused(7), request(0, 0, 1));
    call!(both, checks, refused(8), trade(1, 1, 1));
    call!(both, checks, refused(9), trade(0, 2, 0));
    call!(both, checks, refused(10), trade(0, 2, 43_751));
    call!(both, checks, granted(10_000), trade(0, 2, 10_000));
    close(both, checks, granted(0));
    call!(both, checks, granted(20_000), request(0, 0, 20_000));
    call!(both, checks, granted(26_250), request(1, 0, 26_250));
    call!(both, checks, granted(10_000), request(2, 0, 10_000));
    call!(both, checks, refused(10), request(1, 0, 1));
    call!(both, checks, refused(8), request(0, 1, 1));
    close(both, checks, granted(56_250));
    call!(both, checks, granted(6_250), move_kw(1, 2, 0, 6_250));
    call!(both, checks, refused(10), move_kw(1, 2, 0, 20_001));
    call!(both, checks, granted(3_750), request(0, 0, 3_750));
    call!(both, checks, refused(7), take(2, 0, 4_000, 20));
    close(both, checks, granted(3_750));
    call!(both, checks, granted(4_000), take(2, 0, 4_000, 20));
    call!(both, checks, granted(6_000), take(2, 0, 10_000, 20));
    call!(both, checks, refused(11), take(2, 0, 1, 20));
    call!(both, checks, refused(11), take(1, 0, 1, 19));
    call!(both, checks, refused(12), take(1, 0, 1, 20));
    call!(both, checks, granted(750), move_kw(0, 1, 0, 750));
    call!(both, checks, refused(9), lock(1, 0, 19_687, 31));
    call!(both, checks, refused(10), lock(1, 0, 20_751, 5));
    call!(both, checks, refused(13), lock(1, 0, 19_688, 5));
    call!(both, checks, granted(19_687), lock(1, 0, 19_687, 5));
    call!(both, checks, refused(13), lock(1, 0, 1, 5));
    call!(both, checks, granted(10_000), lock(0, 0, 10_000, 30));
    close(both, checks, refused(7));
    checks.check("a version from 1.0.0 on", zankurbe::version() >= 10_000);
    checks.check(
        "an orderly state",
        zankurbe::state_refusal(&both.words) == 0 && both.year.is_orderly(),
    );
    let mut disorderly = both.words.clone();
    disorderly[48 * 103] = 9;
    checks.check("stage 9", zankurbe::state_refusal(&disorderly) == 6);
    checks.check("few words", zankurbe::state_refusal(&disorderly[..8]) == 5);
}

/// Carry, by a byte too short and then just long enough, and Same.
fn beside_the_year(both: &Both, checks: &mut Checks, bytes: &[u8]) {
    let expected = sheet(&[&CASE_I[..5], &LOCKS].concat());
    let mut output = vec![0x5A; expected.len() + 4];
    let short = &mut output[..expected.len() - 1];
    checks.check(
        "carry into too few bytes",
        zankurbe::carry(bytes, &both.words, short) == refused(14),
    );
    checks.check("the output stays", output.iter().all(|&byte| byte == 0x5A));
    let mut theirs = output.clone();
    let answer = zankurbe::carry(bytes, &both.words, &mut output);
    checks.check("carry", answer == granted(0));
    beside::carry(bytes, &both.year, STATE_WORDS, &mut theirs);
    checks.check("next year's sheet", output == theirs);
    checks.check("its bytes", output.starts_with(&expected));
    checks.check("it opens", zankurbe::sheet_refusal(&expected) == 0);

    let mut reversed = CASE_I;
    reversed.reverse();
    let yes = zankurbe::same(bytes, &sheet(&reversed));
    checks.check("the same year", yes == (granted(0), true));
    let no = zankurbe::same(bytes, &expected);
    checks.check("another year", no == (granted(0), false));
    let first = zankurbe::same(&sheet(&[]), &[]);
    checks.check("the first refused", first == (refused(3), false));
    let second = zankurbe::same(bytes, &[]);
    checks.check("the second refused", second == (refused(1), false));
}

/// The calls once more, as one list.
fn whole_list(both: &Both, checks: &mut Checks, bytes: &[u8]) {
    let calls = CALLS.map(|call| call.0).concat();
    let mut state = vec![NOISE; both.words.len()];
    let mut grants = vec![NOISE; 3 * GRANT_WORDS];
    let mut answers = vec![7; 3 * CALLS.len() + 1];
    checks.check(
        "open",
        zankurbe::open(bytes, &mut state) == granted(100_000),
    );
    let before = state.clone();
    let short = zankurbe::run_calls(&calls[1..], &mut state, &mut grants, &mut answers);
    let untouched = answers.iter().all(|&number| number == 7) && state == before;
    checks.check("no list of calls", !short && untouched);
    let done = zankurbe::run_calls(&calls, &mut state, &mut grants, &mut answers);
    checks.check("a list of calls", done && answers[3 * CALLS.len()] == 7);
    for ((call, kw), answer) in CALLS.iter().zip(answers.chunks(3)) {
        checks.check(&format!("{call:?} of the list"), answer == [0, *kw, 0]);
    }
    checks.check("the state after the list", state == both.words);
    let last = &grants[2 * GRANT_WORDS..];
    checks.check("its last grants", last == &both.grants[..GRANT_WORDS]);
}

/// The posting of case i, as the text that the rules give.
fn posting(checks: &mut Checks, bytes: &[u8]) {
    let mut lines = [7; POSTED_NUMBERS];
    let answer = zankurbe::post(&bytes[1..], &mut lines);
    checks.check("a refused posting", answer == refused(1));
    checks.check("its numbers stay", lines == [7; POSTED_NUMBERS]);
    let answer = zankurbe::post(bytes, &mut lines);
    let line = |letter: &str, rows: std::ops::Range<usize>, column: usize| {
        let figures = rows.map(|row| format!(" {}", lines[48 * row + column]));
        format!("{letter} {column}{}\n", figures.collect::<String>())
    };
    let holders = (0..3).map(|holder| line("H", 6..10, holder));
    let text = format!("T {}\n{}", answer.kw, line("I", 0..6, 0)) + &holders.collect::<String>();
    checks.check("posting", text == beside::post(bytes));
    checks.check(
        "case i",
        text.contains("I 0 110000 10000 30000 0 0 70000\n")
            && text.ends_with("H 2 20000 20000 30000 0\n"),
    );
}

/// Case a of the rules' examples, and lists of unlike length.
fn sharing(checks: &mut Checks) {
    let (claims, weights) = ([20, 90, 50], [1, 1, 2]);
    let (mut ours, mut theirs) = ([7; 4], [7; 4]);
    let answer = zankurbe::share_out(100, &claims, &weights[..2], &mut ours);
    checks.check("unlike lists", answer == refused(5) && ours == theirs);
    let answer = zankurbe::share_out(100, &claims, &weights, &mut ours);
    let their_answer = share_out(100, &claims, &weights, &mut theirs);
    checks.check(
        "case a",
        answer == Answer::granted(100, 2) && answer == their_answer,
    );
    checks.check("its grants", ours == [20, 30, 50, 7] && ours == theirs);
}

fn all() -> Checks {
    let mut checks = Checks::default();
    let (mut both, bytes) = (Both::new(), sheet(&CASE_I));
    open(&mut both, &mut checks, &bytes);
    calls(&mut both, &mut checks);
    beside_the_year(&both, &mut checks, &bytes);
    whole_list(&both, &mut checks, &bytes);
    posting(&mut checks, &bytes);
    sharing(&mut checks);
    checks
}

fn main() {
    let thread = std::thread::Builder::new()
        .stack_size(STACK_BYTES)
        .spawn(all);
    let checks = thread
        .expect("a thread of that stack")
        .join()
        .expect("an end of all checks");
    println!("{} passed, {} failed", checks.passed, checks.failed);
    if checks.failed > 0 {
        std::process::exit(1);
    }
}
