//! Faults planted between what the library or a program left and the comparison, to see that a suite reports them.

use crate::lent::Memory;
use crate::numbers::Numbers;
use crate::programs::Printed;
use independent::answer::Answer;
use std::cell::{Cell, RefCell};

/// What a fault changes.
#[derive(Clone, Copy)]
pub enum Change {
    /// An answer of a granted call: a kW more.
    KwMore,
    /// An answer with passes: one not counted.
    PassNotCounted,
    /// An answer: the next refusal's number; of a granted call, the first one's.
    NextRefusal,
    /// A verdict: no for yes, and yes for no.
    OtherVerdict,
    /// A bit of what a granted call was lent under this name, whether it writes there or not.
    Granted(&'static str),
    /// A bit of what a refused call was lent under this name.
    Refused(&'static str),
    /// A bit just behind what a call was lent under this name.
    Behind(&'static str),
    /// A bit of what a program printed.
    Output,
    /// The last line that a program printed: it is missing.
    LineMissing,
    /// What a program said on standard error: nothing.
    Silent,
    /// Standard error, where nothing was said: a line.
    Said,
    /// The number behind this word on standard error: one more.
    OtherNumber(&'static str),
    /// A bit of a file.
    File,
    /// A file: it is missing.
    FileMissing,
}

/// A call of the library, a program or a file, and what is changed of it. A call has its export's name without the
/// prefix, and what it is lent the names of the parameters there.
pub type Fault = (&'static str, Change);

/// What a call is lent, by its parameter's name.
pub type Part<'a> = (&'static str, &'a mut dyn Memory);

/// What a fault is, for a report.
pub fn name((of, change): Fault) -> String {
    let change = match change {
        Change::KwMore => "a kW more",
        Change::PassNotCounted => "a pass not counted",
        Change::NextRefusal => "the next refusal's number",
        Change::OtherVerdict => "the other verdict",
        Change::Granted(part) => &format!("granted, a bit of {part}"),
        Change::Refused(part) => &format!("refused, a bit of {part}"),
        Change::Behind(part) => &format!("a bit behind {part}"),
        Change::Output => "a bit of the output",
        Change::LineMissing => "the last line missing",
        Change::Silent => "a line on standard error missing",
        Change::Said => "a line on standard error too many",
        Change::OtherNumber(word) => &format!("another {word} on standard error"),
        Change::File => "a bit of the file",
        Change::FileMissing => "the file missing",
    };
    format!("{of}: {change}")
}

/// The fault that is planted in a case, or none.
pub struct Plant {
    fault: Option<Fault>,
    /// The places of bits.
    places: RefCell<Numbers>,
    is_planted: Cell<bool>,
}

impl Plant {
    /// No fault.
    pub fn none() -> Plant {
        Plant::new(None, 0)
    }

    /// A fault, the place of which depends on the case.
    pub fn new(fault: Option<Fault>, case: u64) -> Plant {
        Plant {
            fault,
            places: RefCell::new(Numbers::new(0, case)),
            is_planted: Cell::new(false),
        }
    }

    /// Whether the fault has changed anything.
    pub fn is_planted(&self) -> bool {
        self.is_planted.get()
    }

    /// The change that this call, program or file gets, if any.
    fn change(&self, of: &str) -> Option<Change> {
        self.fault.filter(|fault| fault.0 == of).map(|it| it.1)
    }

    fn note(&self, is_changed: bool) {
        self.is_planted.set(self.is_planted.get() || is_changed);
    }

    /// A call's answer as the suite gets it; what the call was lent is changed too.
    pub fn answer(&self, call: &str, answer: Answer, lent: &mut [Part]) -> Answer {
        self.memory(call, answer.refusal == 0, lent);
        let mut given = answer;
        match self.change(call) {
            Some(Change::KwMore) if answer.refusal == 0 => given.kw += 1,
            Some(Change::PassNotCounted) if answer.passes > 0 => given.passes -= 1,
            Some(Change::NextRefusal) => given.refusal += 1,
            _ => {}
        }
        self.note(given != answer);
        given
    }

    /// A call's verdict as the suite gets it.
    pub fn verdict(&self, call: &str, yes: bool) -> bool {
        let is_turned = matches!(self.change(call), Some(Change::OtherVerdict));
        self.note(is_turned);
        yes != is_turned
    }

    /// Changes what a call was lent.
    pub fn memory(&self, call: &str, granted: bool, lent: &mut [Part]) {
        let Some(change) = self.change(call) else {
            return;
        };
        let places = &mut *self.places.borrow_mut();
        for (name, memory) in lent {
            let is_changed = match change {
                Change::Granted(part) if granted && part == *name => memory.change_lent(places),
                Change::Refused(part) if !granted && part == *name => memory.change_lent(places),
                Change::Behind(part) if part == *name => memory.change_behind(places),
                _ => false,
            };
            self.note(is_changed);
        }
    }

    /// What a program printed, as the suite gets it.
    pub fn printed(&self, program: &str, printed: Printed) -> Printed {
        let mut given = printed.clone();
        match self.change(program) {
            Some(Change::Output) => self.change_bit(&mut given.output),
            Some(Change::LineMissing) => cut_last_line(&mut given.output),
            Some(Change::Silent) => given.error.clear(),
            Some(Change::Said) if printed.error.is_empty() => given.error += "a line\n",
            Some(Change::OtherNumber(word)) => raise_number(&mut given.error, word),
            _ => {}
        }
        self.note(given != printed);
        given
    }

    /// A file's bytes as the suite gets them.
    pub fn file(&self, name: &str, bytes: Option<Vec<u8>>) -> Option<Vec<u8>> {
        let mut given = bytes.clone();
        match (self.change(name), &mut given) {
            (Some(Change::File), Some(bytes)) => self.change_bit(bytes),
            (Some(Change::FileMissing), Some(_)) => given = None,
            _ => {}
        }
        self.note(given != bytes);
        given
    }

    /// Changes a bit, where there are any.
    fn change_bit(&self, bytes: &mut [u8]) {
        let places = &mut *self.places.borrow_mut();
        if !bytes.is_empty() {
            bytes[places.index(bytes.len())] ^= 1 << places.below(8);
        }
    }
}

/// Leaves out the last line, with its newline or without one.
fn cut_last_line(text: &mut Vec<u8>) {
    let before_last = text.len().saturating_sub(1);
    let start = text[..before_last].iter().rposition(|&byte| byte == b'\n');
    text.truncate(start.map_or(0, |newline| newline + 1));
}

/// Makes the number behind a word and a blank one more, where there is one.
fn raise_number(text: &mut String, word: &str) {
    let Some(start) = text.find(&format!("{word} ")).map(|at| at + word.len() + 1) else {
        return;
    };
    let rest = &text[start..];
    let end = rest
        .find(|c: char| !c.is_ascii_digit())
        .unwrap_or(rest.len());
    if let Ok(number) = rest[..end].parse::<u64>() {
        text.replace_range(start..start + end, &(number + 1).to_string());
    }
}
