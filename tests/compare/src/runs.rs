//! Lists of calls run at once: the calls as words, six each, on the state that opening left. The independent
//! program makes them one by one, a closing on its part of the grants buffer. Every word of the state, of the
//! grants and of the answers is compared. Before each list, words that are no list are tried: nothing runs.

use crate::calls::{any_call, theirs, Call};
use crate::faults::Change::{Behind, Granted, OtherVerdict, Refused};
use crate::lent::Lent;
use crate::library::Ours;
use crate::numbers::Numbers;
use crate::openings::open_both;
use crate::suites::Suite;
use crate::tally::{Floor, Tally};
use crate::{closings, layout, lists, singles};
use independent::answer::Answer;
use independent::year::{Year, GRANT_WORDS, OPEN, STATE_WORDS};

pub const SUITE: Suite = Suite {
    name: "runs",
    seed: 6,
    cases: 5_000,
    floors: FLOORS,
    faults: &[
        ("run_calls", OtherVerdict),
        ("run_calls", Granted("calls")),
        ("run_calls", Granted("state")),
        ("run_calls", Granted("grants")),
        ("run_calls", Granted("answers")),
        ("run_calls", Refused("state")),
        ("run_calls", Refused("grants")),
        ("run_calls", Refused("answers")),
        ("run_calls", Behind("state")),
        ("run_calls", Behind("grants")),
        ("run_calls", Behind("answers")),
    ],
    compare,
};

/// The words of a call and of its answer.
const CALL_WORDS: usize = 6;
const ANSWER_WORDS: usize = 3;

/// The words behind each lent buffer, which have to stay.
const BEHIND: usize = 8;

/// The sorts of lists that a run has many of.
const FLOORS: &[Floor] = &[
    ("lists that reach stage 4", 2_000),
    ("lists of no calls", 40),
    ("states of too few words", 80),
    ("states that aren't orderly", 40),
    ("grants of 0 words", 200),
    ("grants of 1,535 words", 200),
    ("grants of 1,536 words", 200),
    ("grants of another fixed length", 600),
    ("grants for all closings", 800),
    ("grants longer than that", 1_000),
    ("closings past the end of the grants", 6_000),
    ("of those, in stage 4", 400),
    ("trades granted", 30_000),
    ("requests granted", 20_000),
    ("moves granted", 15_000),
    ("locks granted", 4_000),
    ("takings granted", 5_000),
    ("refused 5", 15_000),
    ("refused 7", 30_000),
    ("refused 8", 30_000),
    ("refused 9", 30_000),
    ("refused 10", 40_000),
    ("refused 11", 7_000),
    ("refused 12", 10_000),
    ("refused 13", 10_000),
    ("closings of stage 1", 2_000),
    ("closings of stage 2 that grant kW", 1_200),
    ("closings of stage 3 that grant kW", 1_000),
    ("closings with passes", 1_000),
    ("closings with 5 passes or more", 70),
    ("closings with 2 contended interties", 250),
    ("closings that weigh by sellers", 200),
    ("closings with claims of weight 0", 30),
    ("no list: some words too many", 300),
    ("no list: some words too few", 300),
    ("no list: kind 0", 600),
    ("no list: a kind above 6", 600),
    ("no list: too few words of answers", 600),
];

/// A list of calls as it grows, and what the independent program made of it.
struct List {
    /// The words of the calls.
    calls: Vec<u32>,
    /// The year after the calls, and how many words of state they are lent.
    year: Box<Year>,
    state_words: usize,
    /// The grants before the calls and after them, up to the part of the last closing.
    grants: Vec<u32>,
    granted: Vec<u32>,
    /// The most words that the grants may have.
    most_grants: usize,
    answers: Vec<Answer>,
}

impl List {
    /// Makes one more call. Answers it and, of a closing, the words that it was lent.
    fn make(&mut self, call: Call, r: &mut Numbers) -> (Answer, usize) {
        self.calls.extend(encoded(call, r));
        let start = self.grants.len();
        if let Call::Close(_) = call {
            let end = (start + GRANT_WORDS).min(self.most_grants);
            self.add_noise(end - start, r);
        }
        let part = &mut self.granted[start..];
        let lent = part.len();
        let call = match call {
            Call::Close(_) => Call::Close(lent),
            other => other,
        };
        let answer = theirs(call, &mut self.year, self.state_words, part);
        self.answers.push(answer);
        (answer, lent)
    }

    /// Adds words of noise to the grants.
    fn add_noise(&mut self, count: usize, r: &mut Numbers) {
        let noise = r.words(count);
        self.grants.extend(&noise);
        self.granted.extend(&noise);
    }
}

/// The words of a call; those that its kind doesn't name are noise.
fn encoded(call: Call, r: &mut Numbers) -> [u32; CALL_WORDS] {
    let any = r.next() as u32;
    let (kind, numbers, kw) = match call {
        Call::Trade(seller, buyer, kw) => (1, [seller, buyer, any], kw),
        Call::Request(holder, intertie, kw) => (2, [holder, intertie, any], kw),
        Call::Close(_) => (3, [any, any >> 16, any >> 24], r.next()),
        Call::Take(holder, intertie, kw, day) => (4, [holder, intertie, day], kw),
        Call::Move(giver, taker, intertie, kw) => (5, [giver, taker, intertie], kw),
        Call::Lock(holder, intertie, kw, term) => (6, [holder, intertie, term], kw),
    };
    let [a, b, c] = numbers;
    [kind, a, b, c, kw as u32, (kw >> 32) as u32]
}

/// What a run is lent, with some words behind each buffer.
#[derive(Clone, PartialEq)]
struct Buffers {
    state: Lent<u32>,
    grants: Lent<u32>,
    answers: Lent<u64>,
}

impl Buffers {
    /// Runs the calls in the library: whether they are a list, and whether their own words stay.
    fn run(&mut self, ours: &Ours, calls: &[u32]) -> (bool, bool) {
        let mut calls = Lent::whole(calls.to_vec());
        let before = calls.clone();
        let done = ours.run_calls(
            &mut calls,
            &mut self.state,
            &mut self.grants,
            &mut self.answers,
        );
        (done, calls.stays(&before))
    }

    /// How many words of each are lent.
    fn lengths(&self) -> [usize; 3] {
        [
            self.state.lent().len(),
            self.grants.lent().len(),
            self.answers.lent().len(),
        ]
    }

    /// The words that differ from those expected.
    fn differences(&self, expected: &Buffers) -> String {
        let grant_name = |at| format!("of part {}, {}", at / GRANT_WORDS, at % GRANT_WORDS);
        let answer_name = |at| format!("{} of call {}", at % ANSWER_WORDS, at / ANSWER_WORDS);
        format!(
            "state: {}\n  grants: {}\n  answers: {}",
            layout::differences(self.state.all(), expected.state.all(), layout::name),
            layout::differences(self.grants.all(), expected.grants.all(), grant_name),
            layout::differences(self.answers.all(), expected.answers.all(), answer_name),
        )
    }
}

/// Compares a list, or says how the two differ.
fn compare(ours: &Ours, _: u64, r: &mut Numbers, tally: &mut Tally) -> Result<(), String> {
    let (state, mut list) = begun(ours, r, tally)?;
    fill(&mut list, r, tally);
    let mut buffers = lend(state, &list, r);
    refuse(ours, &list.calls, &buffers, r, tally)?;

    let mut expected = buffers.clone();
    expected.grants.lent_mut()[..list.granted.len()].copy_from_slice(&list.granted);
    let answers = expected.answers.lent_mut().chunks_mut(ANSWER_WORDS);
    for (words, answer) in answers.zip(&list.answers) {
        words.copy_from_slice(&[answer.refusal.into(), answer.kw, answer.passes]);
    }
    if list.answers.iter().any(|answer| answer.refusal == 0) {
        layout::write(&list.year, expected.state.lent_mut());
    }
    let (done, untouched) = buffers.run(ours, &list.calls);
    if done && buffers == expected && untouched {
        return Ok(());
    }
    Err(format!(
        "{} calls, lent {:?} words: {done}, calls untouched: {untouched}\n  {}",
        list.answers.len(),
        buffers.lengths(),
        buffers.differences(&expected)
    ))
}

/// The buffers for a list: its state and grants, and answers that are long enough.
fn lend(state: Vec<u32>, list: &List, r: &mut Numbers) -> Buffers {
    let answer_words = ANSWER_WORDS * list.answers.len();
    let spare = r.index(9);
    let grants = [&list.grants[..], &r.words(BEHIND)].concat();
    let answers = r.wide_words(answer_words + spare + BEHIND);
    Buffers {
        state: Lent::new(state, 0..list.state_words),
        grants: Lent::new(grants, 0..list.grants.len()),
        answers: Lent::new(answers, 0..answer_words + r.one_of(&[0, spare])),
    }
}

/// An opened state, and a list without calls on it; now and then a state too short, or one with words
/// changed.
fn begun(ours: &Ours, r: &mut Numbers, tally: &mut Tally) -> Result<(Vec<u32>, List), String> {
    let sheet = Lent::whole(lists::any_sheet(r).bytes());
    let mut opened = Lent::new(r.words(STATE_WORDS + 2 * BEHIND), 0..STATE_WORDS);
    let (mut year, _) = open_both(ours, sheet, &mut opened)?;
    let mut state = opened.all().to_vec();
    let mut state_words = STATE_WORDS + r.index(BEHIND + 1);
    if r.once_in(30) {
        state_words = STATE_WORDS - 1 - r.index(3);
    }
    if r.once_in(20) {
        singles::damage(&mut state, r);
        year = layout::read(&state);
    }
    tally.count("states of too few words", state_words < STATE_WORDS);
    tally.count("states that aren't orderly", !year.is_orderly());
    let list = List {
        calls: Vec::new(),
        year,
        state_words,
        grants: Vec::new(),
        granted: Vec::new(),
        most_grants: usize::MAX,
        answers: Vec::new(),
    };
    Ok((state, list))
}

/// Makes the calls of a list, and gives the grants all their words.
fn fill(list: &mut List, r: &mut Numbers, tally: &mut Tally) {
    let calls = match r.below(60) {
        0 => 0,
        1 => 1 + r.below(19),
        _ => 20 + r.below(181),
    };
    let one_closing_in = (calls / 8).clamp(4, 24);
    let fixed = grants_words(r);
    list.most_grants = fixed.unwrap_or(usize::MAX);
    for _ in 0..calls {
        let call = any_call(&list.year, one_closing_in, r);
        let before = matches!(call, Call::Close(_)).then(|| list.year.clone());
        let (answer, lent) = list.make(call, r);
        lists::count(call, answer, tally);
        if let Some(before) = before {
            let (is_past, is_open) = (lent == 0, before.stage == OPEN);
            tally.count("closings past the end of the grants", is_past);
            tally.count("of those, in stage 4", is_past && is_open);
            if answer.refusal == 0 {
                closings::count(&before, answer, tally);
            }
        }
    }
    let needed = list.grants.len();
    let more = fixed.map_or(r.one_of(&[0, 0, 0, 1, 7, 1_535, 1_536, 4_000]), |words| {
        words - needed
    });
    list.add_noise(more, r);
    tally.count("lists of no calls", calls == 0);
    tally.count("lists that reach stage 4", list.year.stage == OPEN);
    let room = match fixed {
        Some(0) => "grants of 0 words",
        Some(1_535) => "grants of 1,535 words",
        Some(1_536) => "grants of 1,536 words",
        Some(_) => "grants of another fixed length",
        None if more == 0 => "grants for all closings",
        None => "grants longer than that",
    };
    tally.count(room, true);
}

/// The words of the grants buffer; none where it is to have as many as all closings are lent, or more.
fn grants_words(r: &mut Numbers) -> Option<usize> {
    match r.below(16) {
        0 => Some(0),
        1 => Some(GRANT_WORDS - 1),
        2 => Some(GRANT_WORDS),
        3 => Some(r.index(GRANT_WORDS)),
        4..=6 => Some(GRANT_WORDS * (2 + r.index(6)) - 1 + r.index(3)),
        _ => None,
    }
}

/// Runs words that are no list of calls: false, and every word stays.
fn refuse(
    ours: &Ours,
    calls: &[u32],
    buffers: &Buffers,
    r: &mut Numbers,
    tally: &mut Tally,
) -> Result<(), String> {
    let (sort, words, answer_words) = no_list(calls, buffers.answers.lent().len(), r);
    let mut buffers = buffers.clone();
    buffers.answers = buffers.answers.lend_first(answer_words);
    let before = buffers.clone();
    let (done, untouched) = buffers.run(ours, &words);
    tally.count(sort, true);
    if !done && untouched && buffers == before {
        return Ok(());
    }
    Err(format!(
        "{sort}, {} words of calls, {answer_words} of answers: {done}, calls untouched: {untouched}\n  {}",
        words.len(),
        buffers.differences(&before)
    ))
}

/// Words that are no list of calls, made from a list; their sort, and how many words of answers they are lent.
fn no_list(calls: &[u32], answers: usize, r: &mut Numbers) -> (&'static str, Vec<u32>, usize) {
    let mut words = calls.to_vec();
    let count = calls.len() / CALL_WORDS;
    let some = 1 + r.index(CALL_WORDS - 1);
    // The first word of a call: of the first, of the last or of any.
    let any = r.index(count.max(1));
    let at = CALL_WORDS * r.one_of(&[0, count.saturating_sub(1), any]);
    match r.below(8) {
        0 | 1 if count > 0 => {
            words[at] = 0;
            ("no list: kind 0", words, answers)
        }
        2 | 3 if count > 0 => {
            let kind = words[at];
            let low_bits_stand = kind + r.one_of(&[8, 256, 1 << 16, 1 << 31]);
            let any = 7 + (r.next() as u32 >> (1 + r.below(28)));
            words[at] = r.one_of(&[7, 7, 8, low_bits_stand, any, u32::MAX]);
            ("no list: a kind above 6", words, answers)
        }
        4 | 5 if count > 0 => {
            let enough = ANSWER_WORDS * count;
            let short = enough - r.one_of(&[1, 1, 1, 2, 3, enough]);
            ("no list: too few words of answers", words, short)
        }
        6 if count > 0 => {
            words.truncate(words.len() - some);
            ("no list: some words too few", words, answers)
        }
        _ => {
            words.push(1 + r.below(6) as u32);
            words.extend(r.words(some - 1));
            ("no list: some words too many", words, answers)
        }
    }
}
