//! Beside the year: carry, same and post.

use std::fmt::Write;

use crate::answer::Answer;
use crate::opening::load_share_quantity;
use crate::share_out::MAX_HOLDERS;
use crate::sheet::{
    Key, Sheet, EXISTING_CONTRACT, HEADER_BYTES, MAX_RANK, MAX_RECORDS, NEW_USE_COMMITMENT,
    PRE_RA_COMMITMENT, RECORD_BYTES,
};
use crate::year::{Year, OPEN};

/// Carry, in stage 4: next year's sheet goes into `output`, which keeps what
/// stands behind it. `words` is the length of the lent state. Refusals 1 to 7
/// and 14; a refusal writes nothing.
pub fn carry(sheet: &[u8], year: &Year, words: usize, output: &mut [u8]) -> Answer {
    match try_carry(sheet, year, words, output) {
        // A sheet is neither kW nor passes.
        Ok(()) => Answer::granted(0, 0),
        Err(number) => Answer::refused(number),
    }
}

fn try_carry(sheet: &[u8], year: &Year, words: usize, output: &mut [u8]) -> Result<(), u32> {
    let sheet = Sheet::read(sheet)?;
    year.check(words, OPEN..=OPEN)?;
    // The sheet must be of the year that the state is.
    let Sheet {
        interties, holders, ..
    } = sheet;
    if interties != year.interties as usize || holders != year.holders as usize {
        return Err(14);
    }

    // The old records go over one by one. Contracts and commitments have a year
    // less then, and fall away in their last one.
    let mut keys = Vec::with_capacity(MAX_RECORDS);
    let mut quantities = Vec::with_capacity(MAX_RECORDS);
    let mut highest_rank = [0; MAX_HOLDERS];
    for record in sheet.records() {
        let mut key = record.key;
        if matches!(
            key.kind,
            EXISTING_CONTRACT | PRE_RA_COMMITMENT | NEW_USE_COMMITMENT
        ) {
            if key.years < 2 {
                continue;
            }
            key.years -= 1;
            // Only kind 6 has a rank above 0.
            let highest = &mut highest_rank[key.holder as usize];
            *highest = key.rank.max(*highest);
        }
        keys.push(key.to_word());
        quantities.push(record.quantity);
    }

    // Locks follow as New Use commitments of their own, holder by holder, each
    // with the next rank that its holder has free above the others.
    for (holder, highest) in highest_rank[..holders].iter_mut().enumerate() {
        for intertie in 0..interties {
            let locked = year.locked[intertie][holder];
            if locked == 0 {
                continue;
            }
            *highest += 1;
            // The ranks have run out.
            if *highest > MAX_RANK {
                return Err(14);
            }
            let key = Key {
                kind: NEW_USE_COMMITMENT,
                holder: holder as u32,
                intertie: intertie as u32,
                rank: *highest,
                years: year.lock_term[intertie][holder],
            };
            keys.push(key.to_word());
            quantities.push(locked);
        }
    }

    // Too many for a sheet, or too long for the output.
    let count = keys.len();
    if count > MAX_RECORDS || output.len() < HEADER_BYTES + RECORD_BYTES * count {
        return Err(14);
    }
    let header = [year.interties, year.holders, count as u32];
    let written = header.iter().chain(&keys).chain(&quantities);
    for (bytes, word) in output.chunks_exact_mut(4).zip(written) {
        bytes.copy_from_slice(&word.to_le_bytes());
    }
    Ok(())
}

/// Same: whether two sheets lead to one and the same opened year. The answer,
/// without kW or passes, and yes or no; where a sheet is refused (1 to 4), the
/// first one's number before the second's, and no.
pub fn same(first: &[u8], second: &[u8]) -> (Answer, bool) {
    match try_same(first, second) {
        Ok(yes) => (Answer::granted(0, 0), yes),
        Err(number) => (Answer::refused(number), false),
    }
}

fn try_same(first: &[u8], second: &[u8]) -> Result<bool, u32> {
    let first = Sheet::read(first)?;
    let second = Sheet::read(second)?;
    if first.interties != second.interties || first.holders != second.holders {
        return Ok(false);
    }
    // Both are opened into blank states, so that words of no use are alike.
    let mut one = Box::new(Year::blank());
    let mut other = one.clone();
    one.fill(&first);
    other.fill(&second);
    Ok(one == other)
}

/// Program `post`: the text printed for a sheet, or `R` and its refusal's number.
pub fn post(sheet: &[u8]) -> String {
    match Sheet::read(sheet) {
        Ok(sheet) => lines(&sheet),
        Err(number) => format!("R {number}\n"),
    }
}

/// The lines of an opened year: T, then the interties, then the holders, each
/// with its number first.
fn lines(sheet: &Sheet) -> String {
    let Sheet {
        interties, holders, ..
    } = *sheet;
    let mut year = Box::new(Year::blank());
    let total_kw = year.fill(sheet);
    let mut text = String::new();
    line(&mut text, 'T', &[total_kw]);
    for intertie in 0..interties {
        let [existing, pre_ra, new_use] = [&year.existing, &year.pre_ra, &year.new_use]
            .map(|pairs| sum(&pairs[intertie][..holders]));
        let numbers = [
            intertie as u64,
            u64::from(year.limit[intertie]),
            u64::from(year.outside[intertie]),
            existing,
            pre_ra,
            new_use,
            u64::from(year.unassigned[intertie]),
        ];
        line(&mut text, 'I', &numbers);
    }
    let all_load_shares = sum(&year.load_share[..holders]);
    for holder in 0..holders {
        let load_share = u64::from(year.load_share[holder]);
        let numbers = [
            holder as u64,
            load_share,
            load_share_quantity(total_kw, load_share, all_load_shares),
            u64::from(year.reserved[holder]),
            u64::from(year.step5_share[holder]),
        ];
        line(&mut text, 'H', &numbers);
    }
    text
}

/// Adds one line: a letter, then each number after a blank.
pub(crate) fn line(text: &mut String, letter: char, numbers: &[u64]) {
    text.push(letter);
    for number in numbers {
        // Writing to a String never fails.
        let _ = write!(text, " {number}");
    }
    text.push('\n');
}

/// Words added in 64 bits.
pub(crate) fn sum(words: &[u32]) -> u64 {
    words.iter().map(|&word| u64::from(word)).sum()
}

#[cfg(test)]
mod tests {
    use super::*;
    use crate::sheet::samples::*;
    use crate::year::STATE_WORDS;

    #[test]
    fn case_i_post() {
        let expected = "T 100000\n\
                        I 0 110000 10000 30000 0 0 70000\n\
                        H 0 50000 50000 0 43750\n\
                        H 1 30000 30000 0 26250\n\
                        H 2 20000 20000 30000 0\n";
        assert_eq!(post(&case_i()), expected);
    }

    #[test]
    fn a_refused_sheet_prints_its_number() {
        assert_eq!(post(&[]), "R 1\n");
        assert_eq!(post(&sheet(49, 1, &[])), "R 2\n");
        assert_eq!(post(&sheet(1, 1, &[])), "R 3\n");
        assert_eq!(post(&sheet(1, 1, &[limit(0, 1), outside(0, 2)])), "R 4\n");
    }

    #[test]
    fn sheets_that_open_to_equal_states() {
        let one = sheet(1, 2, &[limit(0, 9), outside(0, 4), load_share(1, 0)]);
        let other = sheet(1, 2, &[outside(0, 1), outside(0, 3), limit(0, 9)]);
        let wider = sheet(1, 3, &[limit(0, 9), outside(0, 4)]);
        let looser = sheet(1, 2, &[limit(0, 9), outside(0, 3)]);
        assert_eq!(same(&one, &other), (Answer::granted(0, 0), true));
        assert_eq!(same(&one, &wider), (Answer::granted(0, 0), false));
        assert_eq!(same(&one, &looser), (Answer::granted(0, 0), false));
        // The first's number, though the second's is lower.
        assert_eq!(same(&sheet(1, 1, &[]), &[]), (Answer::refused(3), false));
        assert_eq!(same(&one, &[]), (Answer::refused(1), false));
    }

    /// Case i's sizes with two commitments, in stage 4 with two locks.
    fn carried() -> (Vec<(u32, u32)>, Box<Year>) {
        let records = vec![
            new_use(1, 0, 7, 2, 100),
            limit(0, 110_000),
            existing(2, 0, 1, 30_000),
            pre_ra(2, 0, 30, 10),
            load_share(1, 5),
            new_use(0, 0, 3, 1, 100),
            outside(0, 10_000),
        ];
        let mut year = Box::new(Year::blank());
        assert_eq!(year.open(&sheet(1, 3, &records), STATE_WORDS).refusal, 0);
        year.stage = OPEN;
        year.unassigned[0] -= 90;
        year.placed[0][..2].copy_from_slice(&[40, 50]);
        year.locked[0][..2].copy_from_slice(&[40, 30]);
        year.lock_term[0][..2].copy_from_slice(&[30, 1]);
        (records, year)
    }

    #[test]
    fn carry_writes_next_years_sheet() {
        let (records, year) = carried();
        let expected = sheet(
            1,
            3,
            &[
                new_use(1, 0, 7, 1, 100),
                limit(0, 110_000),
                pre_ra(2, 0, 29, 10),
                load_share(1, 5),
                outside(0, 10_000),
                new_use(0, 0, 1, 30, 40),
                new_use(1, 0, 8, 1, 30),
            ],
        );
        let old = sheet(1, 3, &records);
        let mut output = vec![77; expected.len() + 3];
        assert_eq!(
            carry(&old, &year, STATE_WORDS, &mut output),
            Answer::granted(0, 0)
        );
        assert_eq!(output, [&expected[..], &[77; 3]].concat());
        let mut short = vec![77; expected.len() - 1];
        assert_eq!(
            carry(&old, &year, STATE_WORDS, &mut short),
            Answer::refused(14)
        );
        assert!(short.iter().all(|&byte| byte == 77));
    }

    #[test]
    fn carry_is_refused_by_the_lowest_number() {
        let (records, mut year) = carried();
        let old = sheet(1, 3, &records);
        let mut output = [77; 8_300];
        let mut refused = |number, sheet: &[u8], year: &Year, words| {
            assert_eq!(
                carry(sheet, year, words, &mut output),
                Answer::refused(number)
            );
            assert!(output.iter().all(|&byte| byte == 77));
        };
        refused(1, &old[1..], &year, 0);
        refused(2, &sheet(0, 3, &[]), &year, 0);
        refused(3, &sheet(1, 3, &[]), &year, 0);
        refused(4, &sheet(1, 3, &[limit(0, 0), outside(0, 1)]), &year, 0);
        refused(5, &old, &year, 15_999);
        refused(14, &sheet(1, 2, &[limit(0, 0)]), &year, STATE_WORDS);
        refused(
            14,
            &sheet(2, 3, &[limit(0, 0), limit(1, 0)]),
            &year,
            STATE_WORDS,
        );
        // Rank 256.
        let high = sheet(1, 3, &[limit(0, 0), new_use(0, 0, 255, 2, 1)]);
        refused(14, &high, &year, STATE_WORDS);
        // 1,023 records and two locks.
        let mut many = vec![limit(0, 20_000_000)];
        many.resize(1_023, outside(0, 1));
        refused(14, &sheet(1, 3, &many), &year, STATE_WORDS);
        year.stage = 3;
        refused(7, &sheet(1, 2, &[limit(0, 0)]), &year, STATE_WORDS);
        year.takings[0] = 3;
        refused(6, &old, &year, STATE_WORDS);
        // A rank that falls away is not the highest written.
        year.takings[0] = 0;
        year.stage = 4;
        let last = sheet(1, 3, &[limit(0, 0), new_use(0, 0, 255, 1, 1)]);
        assert_eq!(
            carry(&last, &year, STATE_WORDS, &mut output),
            Answer::granted(0, 0)
        );
    }
}
