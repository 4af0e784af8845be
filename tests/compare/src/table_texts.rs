//! Tables as text: a sheet's numbers written by name or number, with any line ends, empty lines and leading
//! zeros, and such texts with a field or a line damaged.

use crate::numbers::Numbers;
use crate::sheets;
use independent::sheet::{Key, HEADER_BYTES, MAX_RECORDS};
use independent::table::{self, MOST, NAMES};

/// A table before it becomes bytes: the fields of each line. Empty lines have no fields.
pub struct Table {
    lines: Vec<Vec<Vec<u8>>>,
    carriage_returns: bool,
}

/// The bytes of a sheet of any sort that refusal 1 lets pass: standing, damaged, or of any words.
pub fn any_sheet(r: &mut Numbers) -> Vec<u8> {
    if r.once_in(6) {
        return noise(r);
    }
    loop {
        let bytes = sheets::any(r);
        if table::print(&bytes).is_some() {
            return bytes;
        }
    }
}

/// A sheet of any words, some of them the most that there may be; only its length is right.
fn noise(r: &mut Numbers) -> Vec<u8> {
    let count = r.one_of(&[0, 1, 2, 17, MAX_RECORDS - 1, MAX_RECORDS]);
    let any_word = |r: &mut Numbers| {
        let (any, shift) = (r.next() as u32, r.below(32));
        r.one_of(&[any, any, any, any >> shift, 0, u32::MAX])
    };
    let mut words: Vec<u32> = (0..3 + 2 * count).map(|_| any_word(r)).collect();
    words[2] = count as u32;
    words.into_iter().flat_map(u32::to_le_bytes).collect()
}

impl Table {
    /// A table of a sheet that refusal 1 lets pass.
    pub fn new(sheet: &[u8], r: &mut Numbers) -> Table {
        let words: Vec<u32> = sheet
            .chunks_exact(4)
            .map(|bytes| u32::from_le_bytes(bytes.try_into().expect("four bytes")))
            .collect();
        let (sizes, records) = words.split_at(HEADER_BYTES / 4);
        let (keys, quantities) = records.split_at(records.len() / 2);
        let zeros = r.one_of(&[3, 30, 1_000_000]);
        let names = r.one_of(&[1, 2, 1_000_000]);
        let empty = r.one_of(&[3, 20, 1_000_000]);
        let mut lines = vec![vec![number(sizes[0], zeros, r), number(sizes[1], zeros, r)]];
        for (&key, &quantity) in keys.iter().zip(quantities) {
            while r.once_in(empty) {
                lines.push(Vec::new());
            }
            let key = Key::from_word(key);
            let numbers = [key.holder, key.intertie, key.rank, key.years, quantity];
            let kind = match key.kind {
                1..=6 if r.once_in(names) => NAMES[key.kind as usize - 1].as_bytes().to_vec(),
                kind => number(kind, zeros, r),
            };
            let others = numbers.into_iter().map(|value| number(value, zeros, r));
            lines.push([kind].into_iter().chain(others).collect());
        }
        if r.once_in(3) {
            lines.push(Vec::new());
        }
        Table {
            lines,
            carriage_returns: r.once_in(3),
        }
    }

    /// The text; each line ends by a newline, some or all with a carriage return before it, the last one
    /// sometimes by neither or by the carriage return alone.
    pub fn bytes(&self, r: &mut Numbers) -> Vec<u8> {
        let mut text = Vec::new();
        for fields in &self.lines {
            text.extend(fields.join(&b','));
            if self.carriage_returns || r.once_in(40) {
                text.push(b'\r');
            }
            text.push(b'\n');
        }
        if r.once_in(4) {
            text.pop();
        }
        text
    }

    /// Damages the table; now and then in two places.
    pub fn damage(&mut self, r: &mut Numbers) {
        if r.once_in(20) {
            return self.overfill(r);
        }
        let times = 1 + u64::from(r.once_in(5));
        for _ in 0..times {
            let (any, last) = (r.index(self.lines.len()), self.lines.len() - 1);
            let at = r.one_of(&[any, any, any, any, 0, last]);
            let is_first = at == 0;
            damage_line(&mut self.lines[at], is_first, r);
        }
    }

    /// More records than a sheet has; some of them bad.
    fn overfill(&mut self, r: &mut Numbers) {
        let records = self.lines[1..].iter().filter(|fields| !fields.is_empty());
        let more = MAX_RECORDS - records.count() + r.one_of(&[1, 1, 2, 90]);
        let record = b"2,0,0,0,0,1".split(|&byte| byte == b',');
        let record: Vec<Vec<u8>> = record.map(<[u8]>::to_vec).collect();
        let at = 1 + r.index(self.lines.len());
        self.lines.splice(at..at, vec![record; more]);
        if r.once_in(3) {
            // The last records, one of which is the first that is too many.
            let from = self.lines.len() - more.min(3);
            let last = self.lines[from..].iter_mut();
            last.for_each(|fields| damage_line(fields, false, r));
        }
    }
}

/// A number's digits, one in `zeros` with zeros before them.
fn number(value: u32, zeros: u64, r: &mut Numbers) -> Vec<u8> {
    let zeros = if r.once_in(zeros) {
        r.one_of(&[1, 1, 2, 9, 30])
    } else {
        0
    };
    [vec![b'0'; zeros], value.to_string().into_bytes()].concat()
}

/// Fields that are neither number nor kind.
const NO_FIELDS: [&[u8]; 28] = [
    b"",
    b" ",
    b" 1",
    b"1 ",
    b"\t1",
    b"+1",
    b"-1",
    b"x",
    b"1x",
    b"0x1",
    b"1.0",
    b"1;2",
    b"#",
    b"\0",
    b"1\0",
    b"\r",
    b"1\r1",
    b"\xff",
    b"\xef\xbb\xbf1",
    b"\"1\"",
    b"Limit",
    b"LOAD",
    b"limits",
    b"limi",
    b"pre-ra",
    b"new use",
    b"existing ",
    b"newuse6",
];

/// Damages the fields of a line: one of them, or how many there are. Now and then the line is still good.
fn damage_line(fields: &mut Vec<Vec<u8>>, is_first: bool, r: &mut Numbers) {
    if fields.is_empty() {
        // No empty line any more.
        fields.push(r.one_of(&NO_FIELDS).to_vec());
        return;
    }
    let at = r.index(fields.len());
    let most = if is_first { u32::MAX } else { MOST[at.min(5)] };
    match r.below(14) {
        0..=3 => fields[at] = r.one_of(&NO_FIELDS).to_vec(),
        4..=7 => fields[at] = beyond(most, r),
        // The most that the field may be.
        8 => fields[at] = number(most, 2, r),
        // The name of a kind, which only the first field of a record may be.
        9 => fields[at] = r.one_of(&NAMES).as_bytes().to_vec(),
        10 => fields.truncate(at),
        11 => {
            fields.remove(at);
        }
        12 => {
            let any = r.below(6).to_string().into_bytes();
            fields.insert(at, any);
        }
        _ => {
            for _ in 0..r.one_of(&[1, 1, 2, 9]) {
                fields.push(r.one_of(&[&b""[..], b"0", b"0", b"x"]).to_vec());
            }
        }
    }
}

/// A number above `most`: by one, by far, or where its low bits are small.
fn beyond(most: u32, r: &mut Numbers) -> Vec<u8> {
    let small = u128::from(r.below(4));
    let more = u128::from(most) + 1;
    let value = r.one_of(&[
        more,
        more,
        more + small,
        2 * more + small,
        (1 << 32) + small,
        (1 << 64) + small,
        u128::MAX,
    ]);
    let zeros = vec![b'0'; r.one_of(&[0, 0, 0, 5, 300])];
    let digits = r.one_of(&[0, 0, 0, 500]);
    let tail = vec![b'7'; digits];
    [zeros, value.to_string().into_bytes(), tail].concat()
}
