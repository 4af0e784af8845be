//! The sheet: a header of three words, a key for each record, and after all the
//! keys the records' quantities.

use crate::share_out::MAX_HOLDERS;

/// The most interties; a sheet has at least one.
pub const MAX_INTERTIES: usize = 48;
/// The most records; a sheet may have none.
pub const MAX_RECORDS: usize = 1_024;
/// The largest limit and the largest kW of a record.
pub const MAX_KW: u32 = 20_000_000;
/// The largest load share of a holder.
pub const MAX_LOAD_SHARE: u32 = 100_000_000;
/// The most years of a contract or commitment, the current one among them.
pub const MAX_YEARS: u32 = 30;
/// The last rank of a New Use commitment; the first is 1.
pub const MAX_RANK: u32 = 255;

/// The bytes of the header: how many interties, holders and records.
pub const HEADER_BYTES: usize = 12;
/// The bytes of one record: a key and a quantity.
pub const RECORD_BYTES: usize = 8;
const WORD_BYTES: usize = 4;

/// The kinds of record.
pub const LIMIT: u32 = 1;
pub const OUTSIDE_RIGHT: u32 = 2;
pub const LOAD_SHARE: u32 = 3;
pub const EXISTING_CONTRACT: u32 = 4;
pub const PRE_RA_COMMITMENT: u32 = 5;
pub const NEW_USE_COMMITMENT: u32 = 6;

/// The fields of a key, from its lowest bits up: 4 bits of kind, 6 each of
/// holder and intertie, 8 each of rank and years.
#[derive(Clone, Copy, Debug, PartialEq, Eq)]
pub struct Key {
    pub kind: u32,
    pub holder: u32,
    pub intertie: u32,
    pub rank: u32,
    pub years: u32,
}

impl Key {
    /// The fields of a key's word.
    pub const fn from_word(word: u32) -> Self {
        Key {
            kind: word & 0xf,
            holder: word >> 4 & 0x3f,
            intertie: word >> 10 & 0x3f,
            rank: word >> 16 & 0xff,
            years: word >> 24,
        }
    }

    /// The word of fields that fit their widths.
    pub const fn to_word(self) -> u32 {
        self.kind | self.holder << 4 | self.intertie << 10 | self.rank << 16 | self.years << 24
    }
}

/// A record: what it is about, and how much.
#[derive(Clone, Copy, Debug, PartialEq, Eq)]
pub struct Record {
    pub key: Key,
    pub quantity: u32,
}

/// A sheet that none of the refusals 1 to 4 refuses.
#[derive(Clone, Copy, Debug)]
pub struct Sheet<'a> {
    pub interties: usize,
    pub holders: usize,
    keys: &'a [u8],
    quantities: &'a [u8],
}

impl<'a> Sheet<'a> {
    /// Reads a sheet from any bytes; the error is its refusal number, 1 to 4.
    pub fn read(bytes: &'a [u8]) -> Result<Self, u32> {
        // Refusal 1: no whole header, too many records, or not as many bytes
        // as they take.
        let Some((header, records)) = bytes.split_at_checked(HEADER_BYTES) else {
            return Err(1);
        };
        let count = word(&header[8..12]) as usize;
        if count > MAX_RECORDS || records.len() != count * RECORD_BYTES {
            return Err(1);
        }

        // Refusal 2: a size that no sheet may have.
        let interties = word(&header[0..4]) as usize;
        let holders = word(&header[4..8]) as usize;
        if !(1..=MAX_INTERTIES).contains(&interties) || !(1..=MAX_HOLDERS).contains(&holders) {
            return Err(2);
        }

        let (keys, quantities) = records.split_at(count * WORD_BYTES);
        let sheet = Sheet {
            interties,
            holders,
            keys,
            quantities,
        };
        sheet.check_records()?;
        Ok(sheet)
    }

    /// The records in the sheet's order.
    pub fn records(&self) -> impl Iterator<Item = Record> + 'a {
        let keys = self.keys.chunks_exact(WORD_BYTES);
        let quantities = self.quantities.chunks_exact(WORD_BYTES);
        keys.zip(quantities).map(|(key, quantity)| Record {
            key: Key::from_word(word(key)),
            quantity: word(quantity),
        })
    }

    /// The refusals about records: 3 for one that may not stand so, alone or
    /// beside others, 4 for rights and contracts that a limit can't hold.
    fn check_records(&self) -> Result<(), u32> {
        let mut limits = [None; MAX_INTERTIES];
        let mut outside_and_existing = [0u64; MAX_INTERTIES];
        let mut has_load_share = [false; MAX_HOLDERS];
        // For each rank, a bit for every holder that has used it.
        let mut rank_holders = [0u32; MAX_RANK as usize + 1];

        for record in self.records() {
            if !self.stands_alone(record) {
                return Err(3);
            }
            let Record { key, quantity } = record;
            let holder = key.holder as usize;
            let intertie = key.intertie as usize;
            let twice = match key.kind {
                // Whether one is missing is tested below.
                LIMIT => limits[intertie].replace(quantity).is_some(),
                LOAD_SHARE => std::mem::replace(&mut has_load_share[holder], true),
                // The intertie doesn't matter.
                NEW_USE_COMMITMENT => {
                    let seen = &mut rank_holders[key.rank as usize];
                    let before = std::mem::replace(seen, *seen | 1 << holder);
                    before == *seen
                }
                OUTSIDE_RIGHT | EXISTING_CONTRACT => {
                    outside_and_existing[intertie] += u64::from(quantity);
                    false
                }
                _ => false,
            };
            if twice {
                return Err(3);
            }
        }

        // A missing limit (3) comes before one that is passed (4).
        let limits = &limits[..self.interties];
        if limits.contains(&None) {
            return Err(3);
        }
        let mut pairs = limits.iter().flatten().zip(&outside_and_existing);
        if pairs.any(|(&limit, &kw)| kw > u64::from(limit)) {
            return Err(4);
        }
        Ok(())
    }

    /// Whether a record keeps the rules that look at no other record: its holder
    /// and intertie are the sheet's, what its kind doesn't use is left at 0, and
    /// the rest is in range.
    fn stands_alone(&self, record: Record) -> bool {
        let Record { key, quantity } = record;
        let Key {
            kind,
            holder,
            intertie,
            rank,
            years,
        } = key;
        if holder as usize >= self.holders || intertie as usize >= self.interties {
            return false;
        }
        // Only a limit and a load share may be 0.
        let kw_stands = (1..=MAX_KW).contains(&quantity);
        let years_stand = (1..=MAX_YEARS).contains(&years);
        match kind {
            LIMIT => holder == 0 && rank == 0 && years == 0 && quantity <= MAX_KW,
            OUTSIDE_RIGHT => holder == 0 && rank == 0 && years == 0 && kw_stands,
            LOAD_SHARE => intertie == 0 && rank == 0 && years == 0 && quantity <= MAX_LOAD_SHARE,
            EXISTING_CONTRACT | PRE_RA_COMMITMENT => rank == 0 && years_stand && kw_stands,
            // Eight bits hold a rank, so it is never above 255.
            NEW_USE_COMMITMENT => rank >= 1 && years_stand && kw_stands,
            // No other kind is known.
            _ => false,
        }
    }
}

/// A 32-bit little-endian word from its four bytes.
pub(crate) fn word(bytes: &[u8]) -> u32 {
    u32::from_le_bytes([bytes[0], bytes[1], bytes[2], bytes[3]])
}

/// Sheets for the tests.
#[cfg(test)]
pub(crate) mod samples {
    use super::*;

    pub fn record(
        kind: u32,
        holder: u32,
        intertie: u32,
        rank: u32,
        years: u32,
        kw: u32,
    ) -> (u32, u32) {
        (
            Key {
                kind,
                holder,
                intertie,
                rank,
                years,
            }
            .to_word(),
            kw,
        )
    }

    pub fn limit(intertie: u32, kw: u32) -> (u32, u32) {
        record(LIMIT, 0, intertie, 0, 0, kw)
    }

    pub fn outside(intertie: u32, kw: u32) -> (u32, u32) {
        record(OUTSIDE_RIGHT, 0, intertie, 0, 0, kw)
    }

    pub fn load_share(holder: u32, share: u32) -> (u32, u32) {
        record(LOAD_SHARE, holder, 0, 0, 0, share)
    }

    pub fn existing(holder: u32, intertie: u32, years: u32, kw: u32) -> (u32, u32) {
        record(EXISTING_CONTRACT, holder, intertie, 0, years, kw)
    }

    pub fn pre_ra(holder: u32, intertie: u32, years: u32, kw: u32) -> (u32, u32) {
        record(PRE_RA_COMMITMENT, holder, intertie, 0, years, kw)
    }

    pub fn new_use(holder: u32, intertie: u32, rank: u32, years: u32, kw: u32) -> (u32, u32) {
        record(NEW_USE_COMMITMENT, holder, intertie, rank, years, kw)
    }

    pub fn sheet(interties: u32, holders: u32, records: &[(u32, u32)]) -> Vec<u8> {
        let header = [interties, holders, records.len() as u32];
        let keys = records.iter().map(|record| record.0);
        let quantities = records.iter().map(|record| record.1);
        header
            .into_iter()
            .chain(keys)
            .chain(quantities)
            .flat_map(u32::to_le_bytes)
            .collect()
    }

    /// The sheet of case i.
    pub fn case_i() -> Vec<u8> {
        sheet(
            1,
            3,
            &[
                limit(0, 110_000),
                outside(0, 10_000),
                load_share(0, 50_000),
                load_share(1, 30_000),
                load_share(2, 20_000),
                existing(2, 0, 1, 30_000),
            ],
        )
    }
}

#[cfg(test)]
mod tests {
    use super::samples::*;
    use super::*;

    fn refusal(bytes: &[u8]) -> u32 {
        Sheet::read(bytes).err().unwrap_or(0)
    }

    fn refusal_of(records: &[(u32, u32)]) -> u32 {
        refusal(&sheet(
            2,
            2,
            &[&[limit(0, 100), limit(1, 0)], records].concat(),
        ))
    }

    #[test]
    fn key_fields_and_word() {
        let word = 6 + 16 * 31 + 1_024 * 47 + 65_536 * 255 + 16_777_216 * 30;
        let key = Key {
            kind: 6,
            holder: 31,
            intertie: 47,
            rank: 255,
            years: 30,
        };
        assert_eq!(Key::from_word(word), key);
        assert_eq!(key.to_word(), word);
        assert_eq!(Key::from_word(u32::MAX).to_word(), u32::MAX);
    }

    #[test]
    fn lengths() {
        let good = sheet(1, 1, &[limit(0, 5)]);
        assert_eq!(refusal(&good), 0);
        for length in 0..good.len() {
            assert_eq!(refusal(&good[..length]), 1);
        }
        assert_eq!(refusal(&[&good[..], &[0]].concat()), 1);
        let many: Vec<_> = (0..1_025).map(|_| outside(0, 1)).collect();
        assert_eq!(refusal(&sheet(1, 1, &many)), 1);
        assert_eq!(refusal(&sheet(99, 99, &many)), 1);
        let mut huge = sheet(0, 0, &[]);
        huge[8..12].fill(255);
        assert_eq!(refusal(&huge), 1);
    }

    #[test]
    fn sizes() {
        assert_eq!(refusal(&sheet(49, 1, &[])), 2);
        assert_eq!(refusal(&sheet(0, 1, &[])), 2);
        assert_eq!(refusal(&sheet(1, 0, &[])), 2);
        assert_eq!(refusal(&sheet(1, 33, &[])), 2);
        assert_eq!(refusal(&sheet(1, 32, &[])), 3);
        let limits: Vec<_> = (0..48).map(|intertie| limit(intertie, MAX_KW)).collect();
        assert_eq!(refusal(&sheet(48, 32, &limits)), 0);
    }

    #[test]
    fn rules_of_the_records() {
        assert_eq!(refusal_of(&[]), 0);
        assert_eq!(refusal_of(&[limit(0, 1)]), 3);
        assert_eq!(
            refusal_of(&[load_share(1, MAX_LOAD_SHARE), load_share(0, 0)]),
            0
        );
        assert_eq!(refusal_of(&[load_share(1, MAX_LOAD_SHARE + 1)]), 3);
        assert_eq!(refusal_of(&[load_share(1, 0), load_share(1, 0)]), 3);
        assert_eq!(refusal_of(&[load_share(2, 0)]), 3);
        assert_eq!(refusal_of(&[outside(0, 1), outside(0, 1)]), 0);
        assert_eq!(refusal_of(&[outside(2, 1)]), 3);
        assert_eq!(refusal_of(&[outside(0, 0)]), 3);
        assert_eq!(refusal_of(&[outside(0, MAX_KW + 1)]), 3);
        assert_eq!(
            refusal_of(&[existing(1, 0, 30, 1), existing(1, 0, 1, 1)]),
            0
        );
        assert_eq!(refusal_of(&[existing(1, 0, 31, 1)]), 3);
        assert_eq!(refusal_of(&[pre_ra(1, 1, 0, 1)]), 3);
        assert_eq!(refusal_of(&[pre_ra(1, 1, 1, MAX_KW)]), 0);
        assert_eq!(
            refusal_of(&[new_use(1, 1, 255, 30, 1), new_use(0, 1, 255, 1, 1)]),
            0
        );
        assert_eq!(
            refusal_of(&[new_use(1, 1, 7, 30, 1), new_use(1, 0, 7, 1, 1)]),
            3
        );
        assert_eq!(refusal_of(&[new_use(1, 1, 0, 1, 1)]), 3);
        for kind in [0, 7, 8, 15] {
            assert_eq!(refusal_of(&[record(kind, 0, 0, 0, 0, 0)]), 3);
            assert_eq!(refusal_of(&[record(kind, 0, 0, 1, 1, 1)]), 3);
        }
        // Fields that a kind doesn't use.
        for kind in [
            OUTSIDE_RIGHT,
            LOAD_SHARE,
            EXISTING_CONTRACT,
            PRE_RA_COMMITMENT,
        ] {
            assert_eq!(refusal_of(&[record(kind, 0, 0, 1, 1, 1)]), 3);
        }
        assert_eq!(refusal_of(&[record(OUTSIDE_RIGHT, 1, 0, 0, 0, 1)]), 3);
        assert_eq!(refusal_of(&[record(OUTSIDE_RIGHT, 0, 0, 0, 1, 1)]), 3);
        assert_eq!(refusal_of(&[record(LOAD_SHARE, 0, 1, 0, 0, 1)]), 3);
        assert_eq!(refusal_of(&[record(LOAD_SHARE, 0, 0, 0, 1, 1)]), 3);
        assert_eq!(refusal(&sheet(1, 2, &[record(LIMIT, 1, 0, 0, 0, 1)])), 3);
        assert_eq!(refusal(&sheet(1, 1, &[limit(0, MAX_KW + 1)])), 3);
    }

    #[test]
    fn outside_and_existing_above_a_limit() {
        assert_eq!(refusal_of(&[outside(0, 60), existing(0, 0, 1, 40)]), 0);
        assert_eq!(refusal_of(&[outside(0, 60), existing(0, 0, 1, 41)]), 4);
        assert_eq!(
            refusal_of(&[outside(0, 60), existing(0, 0, 1, 41), load_share(5, 1)]),
            3
        );
        // 1,000 rights pass 32 bits together.
        let many: Vec<_> = (0..1_000).map(|_| outside(1, MAX_KW)).collect();
        assert_eq!(refusal_of(&many), 4);
    }
}
