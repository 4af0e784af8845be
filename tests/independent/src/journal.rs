//! Program `year`: a journal of calls, read whole from its text, then run on
//! the year that a sheet opens to; and the text that is printed.

use std::fmt::Write;

use crate::answer::Answer;
use crate::beside::{carry, line, sum};
use crate::sheet::{word, HEADER_BYTES, MAX_RECORDS, RECORD_BYTES};
use crate::year::{PerPair, Year, GRANT_WORDS, STATE_WORDS};

/// The most calls that a journal may have.
pub const MAX_CALLS: usize = 16_384;

/// A call of a journal, its numbers in the journal's order.
#[derive(Clone, Copy, Debug, PartialEq, Eq)]
pub enum Call {
    Trade {
        seller: u32,
        buyer: u32,
        kw: u32,
    },
    Request {
        holder: u32,
        intertie: u32,
        kw: u32,
    },
    Close,
    Take {
        holder: u32,
        intertie: u32,
        kw: u32,
        day: u32,
    },
    Move {
        from: u32,
        to: u32,
        intertie: u32,
        kw: u32,
    },
    Lock {
        holder: u32,
        intertie: u32,
        kw: u32,
        term: u32,
    },
}

/// Why a line is bad.
#[derive(Clone, Copy, Debug, PartialEq, Eq)]
pub enum Why {
    /// The name isn't a call.
    NoCall,
    /// A number is missing.
    Missing,
    /// One too many.
    Surplus,
    /// One that can't be read.
    NoNumber,
    /// A number over 32 bits.
    Over32Bits,
    /// More than 16,384 calls.
    TooManyCalls,
}

/// The first bad line of a journal, counted from 1.
#[derive(Clone, Copy, Debug, PartialEq, Eq)]
pub struct Fault {
    pub line: usize,
    pub why: Why,
}

/// A journal that was run: the text that is printed, the answer to each call,
/// and the year after them.
#[derive(Clone, Debug, PartialEq, Eq)]
pub struct Run {
    pub text: String,
    pub answers: Vec<Answer>,
    pub year: Box<Year>,
}

/// The calls of a journal's text: byte 10 or the end of the text ends a line.
pub fn read(text: &[u8]) -> Result<Vec<Call>, Fault> {
    let mut calls = Vec::new();
    for (line, bytes) in (1..).zip(text.split(|&byte| byte == b'\n')) {
        match read_line(bytes) {
            Ok(None) => {}
            Ok(Some(_)) if calls.len() == MAX_CALLS => {
                let why = Why::TooManyCalls;
                return Err(Fault { line, why });
            }
            Ok(Some(call)) => calls.push(call),
            Err(why) => return Err(Fault { line, why }),
        }
    }
    Ok(calls)
}

/// The call of a line. A line with no words, or whose first byte is `#`, is a
/// comment. The name is judged first, then the words from left to right.
fn read_line(line: &[u8]) -> Result<Option<Call>, Why> {
    if line.starts_with(b"#") {
        return Ok(None);
    }
    // Words separated by one or more blanks, where tab and carriage return
    // count as blanks.
    let blank = |byte: &u8| matches!(byte, b' ' | b'\t' | b'\r');
    let mut words = line.split(blank).filter(|word| !word.is_empty());
    let Some(name) = words.next() else {
        return Ok(None);
    };
    let count = match name {
        b"trade" | b"request" => 3,
        b"take" | b"move" | b"lock" => 4,
        b"close" => 0,
        _ => return Err(Why::NoCall),
    };
    let mut numbers = [0; 4];
    for number in &mut numbers[..count] {
        *number = read_number(words.next().ok_or(Why::Missing)?)?;
    }
    if words.next().is_some() {
        return Err(Why::Surplus);
    }
    let [first, second, third, fourth] = numbers;
    Ok(Some(match name {
        b"trade" => Call::Trade {
            seller: first,
            buyer: second,
            kw: third,
        },
        b"request" => Call::Request {
            holder: first,
            intertie: second,
            kw: third,
        },
        b"take" => Call::Take {
            holder: first,
            intertie: second,
            kw: third,
            day: fourth,
        },
        b"move" => Call::Move {
            from: first,
            to: second,
            intertie: third,
            kw: fourth,
        },
        b"lock" => Call::Lock {
            holder: first,
            intertie: second,
            kw: third,
            term: fourth,
        },
        _ => Call::Close,
    }))
}

/// Numbers are decimal digits, at most 2^32 - 1.
fn read_number(word: &[u8]) -> Result<u32, Why> {
    if !word.iter().all(u8::is_ascii_digit) {
        return Err(Why::NoNumber);
    }
    word.iter().try_fold(0u32, |number, digit| {
        let tens = number.checked_mul(10).ok_or(Why::Over32Bits)?;
        let digit = u32::from(digit - b'0');
        tens.checked_add(digit).ok_or(Why::Over32Bits)
    })
}

/// Opens the sheet, makes the calls one after the other and prints. The error
/// is the sheet's refusal number, 1 to 4.
pub fn run(sheet: &[u8], calls: &[Call]) -> Result<Run, u32> {
    let mut book = Book::open(sheet)?;
    let answers = calls.iter().map(|&call| book.make(call)).collect();
    book.interties();
    book.holders();
    Ok(Run {
        text: book.text,
        answers,
        year: book.year,
    })
}

/// The sheet that carry writes, or its refusal number.
pub fn next_sheet(sheet: &[u8], year: &Year) -> Result<Vec<u8>, u32> {
    let mut output = vec![0; HEADER_BYTES + RECORD_BYTES * MAX_RECORDS];
    match carry(sheet, year, STATE_WORDS, &mut output).refusal {
        0 => {
            let records = word(&output[8..HEADER_BYTES]) as usize;
            output.truncate(HEADER_BYTES + RECORD_BYTES * records);
            Ok(output)
        }
        number => Err(number),
    }
}

/// A year, what its holders bought and sold, and what is printed so far.
struct Book {
    year: Box<Year>,
    bought: Vec<u64>,
    sold: Vec<u64>,
    text: String,
}

impl Book {
    fn open(sheet: &[u8]) -> Result<Book, u32> {
        let mut year = Box::new(Year::blank());
        match year.open(sheet, STATE_WORDS).refusal {
            0 => {
                let holders = year.holders as usize;
                Ok(Book {
                    year,
                    bought: vec![0; holders],
                    sold: vec![0; holders],
                    text: String::new(),
                })
            }
            number => Err(number),
        }
    }

    /// Makes a call, prints its lines and answers it.
    fn make(&mut self, call: Call) -> Answer {
        let mut grants = [0; GRANT_WORDS];
        let answer = call.make(&mut self.year, &mut grants);
        // For each call a line `ok KW PASSES` or `R NUMBER`.
        if answer.refusal != 0 {
            line(&mut self.text, 'R', &[answer.refusal.into()]);
            return answer;
        }
        // Writing to a String never fails.
        let _ = writeln!(self.text, "ok {} {}", answer.kw, answer.passes);
        match call {
            Call::Trade { seller, buyer, kw } => {
                self.sold[seller as usize] += u64::from(kw);
                self.bought[buyer as usize] += u64::from(kw);
            }
            Call::Close => self.grants(&grants),
            _ => {}
        }
        answer
    }

    /// After a granted closing the grants that aren't 0, `G HOLDER INTERTIE
    /// KW`, by holder and then intertie. Word h·I + i is holder h's on
    /// intertie i.
    fn grants(&mut self, grants: &[u32]) {
        let interties = self.year.interties as usize;
        let pairs = self.year.holders as usize * interties;
        for (pair, &kw) in grants[..pairs].iter().enumerate() {
            if kw > 0 {
                let numbers = [pair / interties, pair % interties, kw as usize];
                line(&mut self.text, 'G', &numbers.map(|number| number as u64));
            }
        }
    }

    /// For each intertie `I intertie limit outside reserved placed taken
    /// unassigned`. Reserved is all E, P and N that opening gives on it.
    fn interties(&mut self) {
        let year = &self.year;
        for intertie in 0..year.interties as usize {
            let all = |pairs: &PerPair| sum(&pairs[intertie][..year.holders as usize]);
            let numbers = [
                intertie as u64,
                u64::from(year.limit[intertie]),
                u64::from(year.outside[intertie]),
                all(&year.existing) + all(&year.pre_ra) + all(&year.new_use),
                all(&year.placed),
                all(&year.taken),
                u64::from(year.unassigned[intertie]),
            ];
            line(&mut self.text, 'I', &numbers);
        }
    }

    /// For each holder `H holder step5share bought sold placed unplaced
    /// reserved locked`.
    fn holders(&mut self) {
        let year = &self.year;
        for holder in 0..year.holders as usize {
            let numbers = [
                holder as u64,
                u64::from(year.step5_share[holder]),
                self.bought[holder],
                self.sold[holder],
                year.kw_of(&year.placed, holder),
                u64::from(year.unplaced[holder]),
                u64::from(year.reserved[holder]),
                year.kw_of(&year.locked, holder),
            ];
            line(&mut self.text, 'H', &numbers);
        }
    }
}

impl Call {
    /// Makes the call on a year; a closing writes its grants.
    fn make(self, year: &mut Year, grants: &mut [u32]) -> Answer {
        match self {
            Call::Trade { seller, buyer, kw } => year.trade(STATE_WORDS, seller, buyer, kw.into()),
            Call::Request {
                holder,
                intertie,
                kw,
            } => year.request(STATE_WORDS, holder, intertie, kw.into()),
            Call::Close => year.close(STATE_WORDS, grants),
            Call::Take {
                holder,
                intertie,
                kw,
                day,
            } => year.take(STATE_WORDS, holder, intertie, kw.into(), day),
            Call::Move {
                from,
                to,
                intertie,
                kw,
            } => year.move_kw(STATE_WORDS, from, to, intertie, kw.into()),
            Call::Lock {
                holder,
                intertie,
                kw,
                term,
            } => year.lock(STATE_WORDS, holder, intertie, kw.into(), term),
        }
    }
}

#[cfg(test)]
mod tests {
    use super::*;
    use crate::sheet::samples::*;

    fn fault(text: &[u8]) -> (usize, Why) {
        let fault = read(text).expect_err("a bad line");
        (fault.line, fault.why)
    }

    #[test]
    fn the_calls_of_a_journal() {
        let text =
            b"trade 1 2 3\nrequest 4 5 6\nclose\ntake 7 8 9 10\nmove 1 2 3 4\nlock 5 6 7 8\n";
        let calls = [
            Call::Trade {
                seller: 1,
                buyer: 2,
                kw: 3,
            },
            Call::Request {
                holder: 4,
                intertie: 5,
                kw: 6,
            },
            Call::Close,
            Call::Take {
                holder: 7,
                intertie: 8,
                kw: 9,
                day: 10,
            },
            Call::Move {
                from: 1,
                to: 2,
                intertie: 3,
                kw: 4,
            },
            Call::Lock {
                holder: 5,
                intertie: 6,
                kw: 7,
                term: 8,
            },
        ];
        assert_eq!(read(text), Ok(calls.to_vec()));
        assert_eq!(read(b""), Ok(vec![]));
    }

    #[test]
    fn blanks_comments_and_zeros() {
        let text = b"# close\n\n \t\r\n#\xff\n  close\r\n\ttrade\r0 0001   4294967295 \n#\nclose";
        let trade = Call::Trade {
            seller: 0,
            buyer: 1,
            kw: u32::MAX,
        };
        assert_eq!(read(text), Ok(vec![Call::Close, trade, Call::Close]));
    }

    #[test]
    fn the_first_bad_line() {
        assert_eq!(fault(b"close\n\n#\nClose\nx"), (4, Why::NoCall));
        assert_eq!(fault(b" # close"), (1, Why::NoCall));
        assert_eq!(fault(b"trade1 2 3"), (1, Why::NoCall));
        assert_eq!(fault(b"close\x0b"), (1, Why::NoCall));
        assert_eq!(fault(b"trade 1 2"), (1, Why::Missing));
        assert_eq!(fault(b"lock"), (1, Why::Missing));
        assert_eq!(fault(b"close 1"), (1, Why::Surplus));
        assert_eq!(fault(b"close # x"), (1, Why::Surplus));
        assert_eq!(fault(b"trade 1 2 3 4294967296"), (1, Why::Surplus));
        assert_eq!(fault(b"trade 1 x"), (1, Why::NoNumber));
        assert_eq!(fault(b"trade 1 +2 3"), (1, Why::NoNumber));
        assert_eq!(fault(b"trade 1 2 99999999999x"), (1, Why::NoNumber));
        assert_eq!(fault(b"trade 4294967296 x 3"), (1, Why::Over32Bits));
        let wrapped = b"close\ntrade 0 1 18446744073709551617";
        assert_eq!(fault(wrapped), (2, Why::Over32Bits));
    }

    #[test]
    fn as_many_calls_as_there_may_be() {
        let most = "close\n\n".repeat(MAX_CALLS);
        assert_eq!(
            read(most.as_bytes()).map(|calls| calls.len()),
            Ok(MAX_CALLS)
        );
        let more = most + "#\nclose\n";
        assert_eq!(
            fault(more.as_bytes()),
            (2 * MAX_CALLS + 2, Why::TooManyCalls)
        );
    }

    #[test]
    fn the_year_of_case_i() {
        let text =
            b"trade 0 2 750\ntrade 0 2 43001\nclose\nrequest 1 0 100\nrequest 2 0 50\nclose\n\
                     close\nmove 1 2 0 10\nlock 0 0 1 1\nlock 1 0 90 2\ntake 2 0 60 8\nclose\n";
        let calls = read(text).expect("calls");
        let done = run(&case_i(), &calls).expect("a sheet that opens");
        assert_eq!(done.answers[5], Answer::granted(150, 0));
        assert_eq!(
            done.text,
            "ok 750 0\nR 10\nok 0 0\nok 100 0\nok 50 0\nok 150 0\nG 1 0 100\nG 2 0 50\n\
             ok 0 0\nok 10 0\nR 10\nok 90 0\nok 60 0\nR 7\n\
             I 0 110000 10000 30000 150 60 69790\n\
             H 0 43750 0 750 0 43000 0 0\n\
             H 1 26250 0 0 90 26150 0 90\n\
             H 2 0 750 0 60 700 30000 0\n"
        );
        let next = [
            limit(0, 110_000),
            outside(0, 10_000),
            load_share(0, 50_000),
            load_share(1, 30_000),
            load_share(2, 20_000),
            new_use(1, 0, 1, 2, 90),
        ];
        assert_eq!(next_sheet(&case_i(), &done.year), Ok(sheet(1, 3, &next)));
    }

    #[test]
    fn grants_by_holder_then_intertie() {
        let records = [
            limit(0, 10),
            limit(1, 10),
            load_share(0, 1),
            load_share(1, 1),
        ];
        let calls =
            read(b"close\nrequest 1 0 2\nrequest 0 1 3\nrequest 0 0 4\nrequest 1 1 5\nclose\n")
                .expect("calls");
        let sheet = sheet(2, 2, &records);
        let done = run(&sheet, &calls).expect("a sheet that opens");
        let grants = "ok 14 0\nG 0 0 4\nG 0 1 3\nG 1 0 2\nG 1 1 5\nI 0 ";
        assert!(done.text.contains(grants));
        // Carry is of stage 4 only.
        assert_eq!(next_sheet(&sheet, &done.year), Err(7));
    }

    #[test]
    fn a_refused_sheet_runs_nothing() {
        assert_eq!(run(&[0; 11], &[Call::Close]), Err(1));
        assert_eq!(run(&[0; 12], &[]), Err(2));
    }
}
