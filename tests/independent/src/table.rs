//! A sheet as comma-separated text, and back.

use crate::sheet::{word, Key, HEADER_BYTES, MAX_RECORDS, RECORD_BYTES};

/// The names of the kinds 1 to 6.
pub const NAMES: [&str; 6] = ["limit", "outside", "load", "existing", "prera", "newuse"];

/// The largest number of each column of a record: the kind's, the holder's, the
/// intertie's, the rank's, the years' and the quantity's.
pub const MOST: [u32; 6] = [15, 63, 63, 255, 255, u32::MAX];

/// Why a field is bad.
#[derive(Clone, Copy, Debug, PartialEq, Eq)]
pub enum Why {
    /// Not a number or kind.
    NoNumber,
    /// Too large for its field.
    TooLarge,
    /// A field missing.
    Missing,
    /// One too many.
    Surplus,
    /// Over 1,024 records.
    TooManyRecords,
}

/// A table's first fault: its line and its column (field number), both from 1.
#[derive(Clone, Copy, Debug, PartialEq, Eq)]
pub struct Fault {
    pub line: usize,
    pub column: usize,
    pub why: Why,
}

/// The table of a sheet's bytes, for any bytes that refusal 1 lets pass; none
/// for others.
pub fn print(bytes: &[u8]) -> Option<String> {
    let (header, records) = bytes.split_at_checked(HEADER_BYTES)?;
    let count = word(&header[8..]) as usize;
    if count > MAX_RECORDS || records.len() != RECORD_BYTES * count {
        return None;
    }
    let mut text = format!("{},{}\n", word(header), word(&header[4..]));
    let (keys, quantities) = records.split_at(records.len() / 2);
    for (key, quantity) in keys.chunks(4).zip(quantities.chunks(4)) {
        let Key {
            kind,
            holder,
            intertie,
            rank,
            years,
        } = Key::from_word(word(key));
        // Kinds 1 to 6 by name, others by number.
        let kind = match kind {
            1..=6 => NAMES[kind as usize - 1].to_string(),
            _ => kind.to_string(),
        };
        let kw = word(quantity);
        text += &format!("{kind},{holder},{intertie},{rank},{years},{kw}\n");
    }
    Some(text)
}

/// The bytes of a table's sheet.
pub fn read(text: &[u8]) -> Result<Vec<u8>, Fault> {
    // Lines end by newline or the end; one carriage return before the line end
    // is dropped.
    let lines = text
        .split(|&byte| byte == b'\n')
        .map(|line| line.strip_suffix(b"\r").unwrap_or(line));
    let mut sizes = [0; 2];
    let (mut keys, mut quantities) = (Vec::new(), Vec::new());
    for (number, line) in (1..).zip(lines) {
        let fault = |(column, why)| Fault {
            line: number,
            column,
            why,
        };
        if number == 1 {
            sizes = fields(line, |_, field| read_number(field, u32::MAX)).map_err(fault)?;
            continue;
        }
        if line.is_empty() {
            continue;
        }
        if keys.len() == MAX_RECORDS {
            return Err(fault((1, Why::TooManyRecords)));
        }
        let numbers = fields(line, |column, field| match column {
            1 => read_kind(field),
            _ => read_number(field, MOST[column - 1]),
        });
        let [kind, holder, intertie, rank, years, kw] = numbers.map_err(fault)?;
        let key = Key {
            kind,
            holder,
            intertie,
            rank,
            years,
        };
        keys.push(key.to_word());
        quantities.push(kw);
    }
    let header = [sizes[0], sizes[1], keys.len() as u32];
    let words = header.iter().chain(&keys).chain(&quantities);
    Ok(words.flat_map(|word| word.to_le_bytes()).collect())
}

/// The numbers of a line of `COUNT` fields, from left to right; the error is
/// the first column that can't be read, is missing or is too many.
fn fields<const COUNT: usize>(
    line: &[u8],
    read: impl Fn(usize, &[u8]) -> Result<u32, Why>,
) -> Result<[u32; COUNT], (usize, Why)> {
    let mut fields = line.split(|&byte| byte == b',');
    let mut numbers = [0; COUNT];
    for (column, number) in (1..).zip(&mut numbers) {
        let field = fields.next().ok_or((column, Why::Missing))?;
        *number = read(column, field).map_err(|why| (column, why))?;
    }
    match fields.next() {
        None => Ok(numbers),
        Some(_) => Err((COUNT + 1, Why::Surplus)),
    }
}

/// Kind by number (0 to 15) or by name for 1 to 6.
fn read_kind(field: &[u8]) -> Result<u32, Why> {
    match (1..).zip(NAMES).find(|(_, name)| name.as_bytes() == field) {
        Some((kind, _)) => Ok(kind),
        None => read_number(field, MOST[0]),
    }
}

/// A number of decimal digits, at most `most`.
fn read_number(field: &[u8], most: u32) -> Result<u32, Why> {
    if field.is_empty() || !field.iter().all(u8::is_ascii_digit) {
        return Err(Why::NoNumber);
    }
    let number = field.iter().try_fold(0u32, |number, digit| {
        number.checked_mul(10)?.checked_add((digit - b'0').into())
    });
    match number {
        Some(number) if number <= most => Ok(number),
        _ => Err(Why::TooLarge),
    }
}

#[cfg(test)]
mod tests {
    use super::*;
    use crate::sheet::samples::*;

    const CASE_I: &str = "1,3\nlimit,0,0,0,0,110000\noutside,0,0,0,0,10000\nload,0,0,0,0,50000\n\
                          load,1,0,0,0,30000\nload,2,0,0,0,20000\nexisting,2,0,0,1,30000\n";

    fn fault(text: &str) -> (usize, usize, Why) {
        let Fault { line, column, why } = read(text.as_bytes()).expect_err("a fault");
        (line, column, why)
    }

    #[test]
    fn case_i_there_and_back() {
        assert_eq!(print(&case_i()).as_deref(), Some(CASE_I));
        assert_eq!(read(CASE_I.as_bytes()), Ok(case_i()));
    }

    #[test]
    fn any_bytes_of_the_right_length() {
        let records = [
            (u32::MAX, u32::MAX),
            (0, 0),
            (7, 1),
            new_use(63, 62, 3, 4, 5),
        ];
        let bytes = sheet(u32::MAX, 0, &records);
        let text = "4294967295,0\n15,63,63,255,255,4294967295\n0,0,0,0,0,0\n7,0,0,0,0,1\n\
                    newuse,63,62,3,4,5\n";
        assert_eq!(print(&bytes).as_deref(), Some(text));
        assert_eq!(read(text.as_bytes()), Ok(bytes.clone()));
        assert_eq!(print(&bytes[1..]), None);
        assert_eq!(print(&[0; 11]), None);
        assert_eq!(print(&sheet(1, 1, &[(0, 0); 1_025])), None);
    }

    #[test]
    fn the_same_table_in_other_words() {
        let text = "01,0000000000003\r\n\n1,0,0,0,0,110000\n\r\n2,00,0,0,0,10000\r\n\
                    3,0,0,0,0,50000\n003,1,0,0,0,30000\nload,2,0,0,0,20000\n\n4,2,0,0,1,30000\r";
        assert_eq!(read(text.as_bytes()), Ok(case_i()));
        assert_eq!(read(b"1,3"), Ok(sheet(1, 3, &[])));
    }

    #[test]
    fn the_first_fault() {
        use Why::{Missing, NoNumber, Surplus, TooLarge};
        assert_eq!(fault(""), (1, 1, NoNumber));
        assert_eq!(fault("\n1,1"), (1, 1, NoNumber));
        assert_eq!(fault("1"), (1, 2, Missing));
        assert_eq!(fault("1,"), (1, 2, NoNumber));
        assert_eq!(fault("1,2,"), (1, 3, Surplus));
        assert_eq!(fault("4294967296,1"), (1, 1, TooLarge));
        let record = |line: &str| fault(&format!("1,1\n\n{line}"));
        assert_eq!(record("Limit,0,0,0,0,1"), (3, 1, NoNumber));
        assert_eq!(record("16,0,0,0,0,1"), (3, 1, TooLarge));
        assert_eq!(record(" ,0"), (3, 1, NoNumber));
        assert_eq!(record("1,64,64,256,256,4294967296"), (3, 2, TooLarge));
        assert_eq!(record("1,63,64,256,256,4294967296"), (3, 3, TooLarge));
        assert_eq!(record("1,63,63,256,256,4294967296"), (3, 4, TooLarge));
        assert_eq!(record("1,63,63,255,256,4294967296"), (3, 5, TooLarge));
        assert_eq!(record("1,63,63,255,255,4294967296"), (3, 6, TooLarge));
        assert_eq!(record("1,0,0,0,0,1\r\r\n"), (3, 6, NoNumber));
        assert_eq!(record("1,0,0"), (3, 4, Missing));
        assert_eq!(record("1,0,0,0,0,1,"), (3, 7, Surplus));
        assert_eq!(record("1,limit,0,0,0,1"), (3, 2, NoNumber));
        assert_eq!(record("1,9999999999x,0"), (3, 2, NoNumber));
    }

    #[test]
    fn as_many_records_as_there_may_be() {
        let most = "1,1\n".to_string() + &"limit,0,0,0,0,1\n".repeat(MAX_RECORDS);
        let bytes = read(most.as_bytes()).expect("a sheet");
        assert_eq!(bytes.len(), HEADER_BYTES + RECORD_BYTES * MAX_RECORDS);
        let more = (MAX_RECORDS + 3, 1, Why::TooManyRecords);
        assert_eq!(fault(&format!("{most}\n0,0,0,0,0,0")), more);
        assert_eq!(fault(&format!("{most}\n0,64")), more);
    }
}
