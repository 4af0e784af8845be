//! Journals as text: calls written with any blanks, comments, line ends and leading zeros, and such texts
//! with a line damaged.

use crate::calls::Call;
use crate::numbers::Numbers;

/// How the lines of a journal are written.
#[derive(Clone, Copy)]
struct Style {
    /// Whether every line ends by a carriage return and a newline.
    carriage_returns: bool,
    /// Whether only single blanks stand between words.
    plain: bool,
    /// One number in so many has leading zeros; one line in so many has a comment before it.
    zeros: u64,
    comments: u64,
}

/// A journal before it becomes bytes.
pub struct Journal {
    /// The words of each call.
    calls: Vec<Vec<Vec<u8>>>,
    style: Style,
}

impl Journal {
    /// A journal of these calls. A long one has few comments and leading zeros.
    pub fn new(calls: &[Call], r: &mut Numbers) -> Journal {
        let rarely = 1_000_000;
        let often = if calls.len() < 1_000 { 1 } else { 100 };
        let style = Style {
            carriage_returns: r.once_in(4),
            plain: r.once_in(3),
            zeros: r.one_of(&[3 * often, 20 * often, rarely]),
            comments: r.one_of(&[2 * often, 12 * often, rarely]),
        };
        let calls = calls.iter().map(|&call| words(call, style, r)).collect();
        Journal { calls, style }
    }

    /// Damages the line of a call, now and then that of another one too.
    pub fn damage(&mut self, r: &mut Numbers) {
        if self.calls.is_empty() {
            self.calls.push(vec![b"close".to_vec()]);
        }
        let times = 1 + u64::from(r.once_in(4));
        for _ in 0..times {
            let (any, last) = (r.index(self.calls.len()), self.calls.len() - 1);
            let at = r.one_of(&[any, any, any, 0, last]);
            damage_words(&mut self.calls[at], r);
        }
    }

    /// The bytes, in the journal's style.
    pub fn bytes(&self, r: &mut Numbers) -> Vec<u8> {
        let mut text = Vec::new();
        let end: &[u8] = if self.style.carriage_returns {
            b"\r\n"
        } else {
            b"\n"
        };
        for words in &self.calls {
            while r.once_in(self.style.comments) {
                text.extend(comment(r));
                text.extend(end);
            }
            if !self.style.plain && r.once_in(6) {
                text.extend(self.gap(r));
            }
            for (at, word) in words.iter().enumerate() {
                if at > 0 {
                    text.extend(self.gap(r));
                }
                text.extend(word);
            }
            if !self.style.plain && r.once_in(6) {
                text.extend(self.gap(r));
            }
            text.extend(end);
        }
        if r.once_in(3) {
            text.extend(comment(r));
            text.extend(end);
        }
        if r.once_in(4) {
            text.truncate(text.len().saturating_sub(end.len()));
        }
        text
    }

    /// What stands between two words.
    fn gap(&self, r: &mut Numbers) -> Vec<u8> {
        if self.style.plain {
            return vec![b' '];
        }
        let length = r.one_of(&[1, 1, 1, 1, 2, 3, 9]);
        (0..length).map(|_| r.one_of(b"    \t\r")).collect()
    }
}

/// The words of a call.
fn words(call: Call, style: Style, r: &mut Numbers) -> Vec<Vec<u8>> {
    let (name, numbers) = match call {
        Call::Trade(seller, buyer, kw) => ("trade", vec![seller.into(), buyer.into(), kw]),
        Call::Request(holder, intertie, kw) => {
            ("request", vec![holder.into(), intertie.into(), kw])
        }
        Call::Close(_) => ("close", vec![]),
        Call::Take(holder, intertie, kw, day) => {
            ("take", vec![holder.into(), intertie.into(), kw, day.into()])
        }
        Call::Move(from, to, intertie, kw) => {
            ("move", vec![from.into(), to.into(), intertie.into(), kw])
        }
        Call::Lock(holder, intertie, kw, term) => (
            "lock",
            vec![holder.into(), intertie.into(), kw, term.into()],
        ),
    };
    let mut words = vec![name.as_bytes().to_vec()];
    for number in numbers {
        let zeros = if r.once_in(style.zeros) {
            r.one_of(&[1, 2, 9, 30])
        } else {
            0
        };
        words.push([vec![b'0'; zeros], number.to_string().into_bytes()].concat());
    }
    words
}

/// A line that is no call: empty, of blanks only, or from its first byte a comment.
fn comment(r: &mut Numbers) -> Vec<u8> {
    match r.below(8) {
        0 | 1 => Vec::new(),
        2 => b" \t\r ".to_vec(),
        3 => b"#".to_vec(),
        4 => b"# close".to_vec(),
        5 => b"#trade 1 x 99999999999".to_vec(),
        6 => b"##\tweek 3\r".to_vec(),
        _ => {
            let length = r.index(90);
            let mut bytes = r.bytes(length);
            bytes.retain(|&byte| byte != b'\n');
            bytes.insert(0, b'#');
            bytes
        }
    }
}

/// Words that are no call's name.
const NO_NAMES: [&[u8]; 18] = [
    b"trades",
    b"trad",
    b"t",
    b"sell",
    b"requests",
    b"reques",
    b"closed",
    b"clos",
    b"taken",
    b"tak",
    b"moved",
    b"mov",
    b"locks",
    b"lo",
    b"ok",
    b"7",
    b"close,",
    b"lock\0",
];

/// Words that are no number.
const NO_NUMBERS: [&[u8]; 20] = [
    b"+1",
    b"-1",
    b"+",
    b"-",
    b"x",
    b"1x",
    b"x1",
    b"0x10",
    b"1.5",
    b"1,000",
    b"1_000",
    b"1e3",
    b"#1",
    b"1#",
    b"1\0",
    b"\x0b1",
    b"1\x0c",
    b"\xa01",
    b"\xd9\xa1",
    b"4294967296/",
];

/// Numbers that 32 bits don't hold, the low bits of most of them small.
const OVER_32_BITS: [&[u8]; 10] = [
    b"4294967296",
    b"4294967297",
    b"000004294967296",
    b"4294967300",
    b"5000000000",
    b"9999999999",
    b"42949672960",
    b"18446744073709551615",
    b"18446744073709551616",
    b"340282366920938463463374607431768211457",
];

/// Damages a line, in one of the ways there are; now and then it is still good.
fn damage_words(words: &mut Vec<Vec<u8>>, r: &mut Numbers) {
    let number = (words.len() > 1).then(|| 1 + r.index(words.len().max(2) - 1));
    match (r.below(16), number) {
        (0 | 1, _) => words[0] = r.one_of(&NO_NAMES).to_vec(),
        (2, _) => {
            let at = r.index(words[0].len());
            let until = r.one_of(&[1, at + 1, words[0].len()]);
            words[0][at.min(until - 1)..until].make_ascii_uppercase();
        }
        // A `#` that isn't the line's first byte makes no comment.
        (3, _) => words.insert(0, b" #".to_vec()),
        (4, _) => words.push(b"#".to_vec()),
        (5, _) => {
            let any = r.below(1 << 32).to_string().into_bytes();
            words.push(
                r.one_of(&[&any[..], b"0", b"0", b"x", b"4294967296", b"close"])
                    .to_vec(),
            );
        }
        (6 | 7, Some(_)) => {
            words.pop();
        }
        (8, Some(at)) => words.truncate(at),
        (9 | 10, Some(at)) => words[at] = r.one_of(&NO_NUMBERS).to_vec(),
        (11 | 12, Some(at)) => words[at] = r.one_of(&OVER_32_BITS).to_vec(),
        (13, Some(at)) => {
            let length = r.one_of(&[11, 20, 40, 4_000]);
            words[at] = (0..length).map(|_| r.one_of(b"123456789")).collect();
        }
        // The most that a number may be, with zeros before it or none.
        (14, Some(at)) => {
            let zeros = vec![b'0'; r.one_of(&[0, 0, 1, 50, 4_000])];
            words[at] = [&zeros[..], b"4294967295"].concat();
        }
        (15, Some(_)) => {
            // The name and the first number become one word.
            let first = words.remove(1);
            words[0].extend(first);
        }
        (_, _) => words[0].push(r.one_of(b"\0\x0b\x0c#s0\xff")),
    }
}
