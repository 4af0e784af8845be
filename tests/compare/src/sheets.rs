//! Random sheets: standing ones in many shapes, most of them with more asked for than there is, damaged
//! ones, and bytes that are hardly a sheet.

use crate::damages;
use crate::numbers::Numbers;
use independent::share_out::MAX_HOLDERS;
use independent::sheet::{
    Key, Record, EXISTING_CONTRACT, LIMIT, LOAD_SHARE, MAX_INTERTIES, MAX_KW, MAX_LOAD_SHARE,
    MAX_RANK, MAX_RECORDS, MAX_YEARS, NEW_USE_COMMITMENT, OUTSIDE_RIGHT, PRE_RA_COMMITMENT,
};

/// The most kW of a limit or a record, and the most of a load share.
const MOST_KW: u64 = MAX_KW as u64;
const MOST_SHARE: u64 = MAX_LOAD_SHARE as u64;

/// A sheet before it becomes bytes.
#[derive(Clone, PartialEq)]
pub struct Draft {
    pub interties: u32,
    pub holders: u32,
    pub records: Vec<Record>,
}

impl Draft {
    /// The three words, the keys, the quantities.
    pub fn bytes(&self) -> Vec<u8> {
        let header = [self.interties, self.holders, self.records.len() as u32];
        let keys = self.records.iter().map(|record| record.key.to_word());
        let quantities = self.records.iter().map(|record| record.quantity);
        header
            .into_iter()
            .chain(keys)
            .chain(quantities)
            .flat_map(u32::to_le_bytes)
            .collect()
    }

    /// How many records may still be added.
    pub fn room(&self) -> usize {
        MAX_RECORDS.saturating_sub(self.records.len())
    }
}

/// The bytes of a sheet of any sort; about half of them stand.
pub fn any(r: &mut Numbers) -> Vec<u8> {
    match r.below(25) {
        0..=12 => standing(r).bytes(),
        13 => damages::garbage(r),
        14 => damages::flipped(standing(r), r),
        _ => damages::damaged(standing(r), r),
    }
}

/// A sheet that stands.
pub fn standing(r: &mut Numbers) -> Draft {
    let mut plan = Plan::new(r);
    plan.load_shares(r);
    plan.outside_rights(r);
    plan.existing_contracts(r);
    if r.once_in(12) {
        plan.past_32_bits(r);
    }
    plan.new_use_commitments(r);
    plan.pre_ra_commitments(r);
    let mut draft = plan.draft;
    match r.below(4) {
        0 => {}
        1 => draft.records.reverse(),
        _ => r.shuffle(&mut draft.records),
    }
    draft
}

/// A standing sheet as it grows, with the sums that later records are measured by.
struct Plan {
    draft: Draft,
    /// Whether the sheet gets all the records it may have.
    full: bool,
    /// Whether sizes, limits and load shares are all the largest, without outside rights.
    largest: bool,
    /// Of a crowded sheet: the intertie that Pre-RA commitments crowd on, and the one that New Use
    /// commitments do. It has load shares and few existing contracts, so that every step cuts something.
    crowded: Option<(usize, usize)>,
    /// All limits less the outside rights: T.
    total_kw: u64,
    /// What outside rights and existing contracts leave of each intertie's limit.
    left: Vec<u64>,
    /// E, as `existing[intertie][holder]`.
    existing: Vec<Vec<u64>>,
    /// Pre-RA kW, in the same way.
    pre_ra: Vec<Vec<u64>>,
    /// The ranks that each holder has not used, the next one last.
    ranks: Vec<Vec<u32>>,
}

impl Plan {
    /// A sheet of some size with its limits only.
    fn new(r: &mut Numbers) -> Plan {
        let largest = r.once_in(40);
        let (interties, holders) = if largest {
            (MAX_INTERTIES, MAX_HOLDERS)
        } else {
            sizes(r)
        };
        let limits = if largest {
            vec![MOST_KW; interties]
        } else {
            limits(interties, r)
        };
        let mut plan = Plan {
            draft: Draft {
                interties: interties as u32,
                holders: holders as u32,
                records: Vec::with_capacity(MAX_RECORDS),
            },
            full: r.once_in(8),
            largest,
            crowded: crowded(interties, r),
            total_kw: limits.iter().sum(),
            left: limits.clone(),
            existing: vec![vec![0; holders]; interties],
            pre_ra: vec![vec![0; holders]; interties],
            ranks: (0..holders).map(|_| ranks(r)).collect(),
        };
        for (intertie, kw) in limits.into_iter().enumerate() {
            plan.add(
                Key {
                    kind: LIMIT,
                    holder: 0,
                    intertie: intertie as u32,
                    rank: 0,
                    years: 0,
                },
                kw,
            );
        }
        plan
    }

    fn holders(&self) -> usize {
        self.draft.holders as usize
    }

    fn interties(&self) -> usize {
        self.draft.interties as usize
    }

    fn add(&mut self, key: Key, quantity: u64) {
        self.draft.records.push(Record {
            key,
            quantity: quantity as u32,
        });
    }

    /// Adds an outside right.
    fn add_outside(&mut self, intertie: usize, kw: u64) {
        self.left[intertie] -= kw;
        self.total_kw -= kw;
        self.add(
            Key {
                kind: OUTSIDE_RIGHT,
                holder: 0,
                intertie: intertie as u32,
                rank: 0,
                years: 0,
            },
            kw,
        );
    }

    /// Adds an existing contract.
    fn add_existing(&mut self, (intertie, holder): (usize, usize), kw: u64, r: &mut Numbers) {
        self.left[intertie] -= kw;
        self.existing[intertie][holder] += kw;
        self.add(pair_key(EXISTING_CONTRACT, (intertie, holder), 0, r), kw);
    }

    /// Adds a Pre-RA commitment.
    fn add_pre_ra(&mut self, (intertie, holder): (usize, usize), kw: u64, r: &mut Numbers) {
        self.pre_ra[intertie][holder] += kw;
        self.add(pair_key(PRE_RA_COMMITMENT, (intertie, holder), 0, r), kw);
    }

    /// Adds a New Use commitment with the holder's next rank; none if its ranks are used up.
    fn add_new_use(&mut self, (intertie, holder): (usize, usize), kw: u64, r: &mut Numbers) {
        if let Some(rank) = self.ranks[holder].pop() {
            self.add(
                pair_key(NEW_USE_COMMITMENT, (intertie, holder), rank, r),
                kw,
            );
        }
    }

    /// How many records of a kind to add, at most `most`.
    fn count(&self, most: usize, r: &mut Numbers) -> usize {
        if self.full {
            return most;
        }
        let pairs = self.interties() * self.holders();
        let range = r.one_of(&[3, pairs / 2, pairs, 2 * pairs, 4 * pairs]) + 2;
        let least = if self.crowded.is_some() {
            2 * self.holders()
        } else {
            0
        };
        (least + r.index(range)).min(most)
    }

    /// Load shares: none, all 0, all the largest, all equal, one far above the others, or any, some 0 and some missing.
    fn load_shares(&mut self, r: &mut Numbers) {
        let most = r.one_of(&[1, 2, 5, 1_000, 100_000, MOST_SHARE]);
        let (first, large) = (r.below(most) + 1, r.index(self.holders()));
        let (zeros, missing) = (r.one_of(&[4, 20, 1_000]), r.one_of(&[4, 20, 1_000]));
        let style = match self.crowded {
            _ if self.largest => 2,
            Some(_) => 2 + r.below(28),
            None => r.below(30),
        };
        for holder in 0..self.holders() {
            let share = match style {
                0 => None,
                1 => Some(0),
                2 => Some(MOST_SHARE),
                3..=5 => Some(first),
                6 | 7 => Some(if holder == large {
                    MOST_SHARE
                } else {
                    r.below(3)
                }),
                _ if r.once_in(missing) => None,
                _ if r.once_in(zeros) => Some(0),
                _ => Some(r.below(most) + 1),
            };
            if let Some(share) = share {
                self.add(
                    Key {
                        kind: LOAD_SHARE,
                        holder: holder as u32,
                        intertie: 0,
                        rank: 0,
                        years: 0,
                    },
                    share,
                );
            }
        }
    }

    /// Outside rights on some interties, now and then of the whole limit.
    fn outside_rights(&mut self, r: &mut Numbers) {
        if self.largest || r.once_in(4) {
            return;
        }
        let (often, parts) = (r.one_of(&[2, 4, 12]), r.one_of(&[4, 10, 40]));
        for intertie in 0..self.interties() {
            while self.left[intertie] > 0 && self.draft.room() > 600 && r.once_in(often) {
                let most = if r.once_in(20) {
                    self.left[intertie]
                } else {
                    self.left[intertie] / parts
                };
                self.add_outside(intertie, part(most, r));
            }
        }
    }

    /// Existing contracts. Some interties are filled to the limit by one holder, now and then all of them.
    fn existing_contracts(&mut self, r: &mut Numbers) {
        let popular = self.popular(r);
        let all_by_one = self.crowded.is_none() && r.once_in(20);
        let count = if all_by_one {
            0
        } else {
            self.count(self.draft.room() / 4, r)
        };
        let each = self.left.iter().sum::<u64>() / count.max(1) as u64;
        let most = if self.crowded.is_some() {
            each / 8
        } else {
            r.one_of(&[each / 8, each / 2, each, 4 * each])
        };
        for _ in 0..count {
            let (intertie, holder) = self.pair(&popular, r);
            if self.left[intertie] > 0 {
                let kw = part(most, r).min(self.left[intertie]);
                self.add_existing((intertie, holder), kw, r);
            }
        }
        let (holder, filled) = (r.index(self.holders()), r.one_of(&[8, 100, 1_000]));
        for intertie in 0..self.interties() {
            if self.left[intertie] > 0
                && self.draft.room() > 300
                && (all_by_one || r.once_in(filled))
            {
                self.add_existing((intertie, holder), self.left[intertie], r);
            }
        }
    }

    /// Commitments of a pair whose kW together pass 32 bits.
    fn past_32_bits(&mut self, r: &mut Numbers) {
        let (intertie, holder) = self.pair(&[], r);
        let wanted = (1 << 32) + r.below(self.existing[intertie][holder] + self.left[intertie] + 2);
        let new_use = r.once_in(2);
        if self.draft.room() < kw_records(wanted).count() {
            return;
        }
        for kw in kw_records(wanted) {
            if new_use {
                self.add_new_use((intertie, holder), kw, r);
            } else {
                self.add_pre_ra((intertie, holder), kw, r);
            }
        }
    }

    /// New Use commitments with ranks in any order, together from a quarter of T to far above it.
    fn new_use_commitments(&mut self, r: &mut Numbers) {
        let count = self.count(self.draft.room() / 2, r);
        let each = self.total_kw / count.max(1) as u64;
        let (popular, most) = match self.crowded {
            Some((_, crowd)) => (vec![crowd], 2 * self.total_kw / self.holders() as u64),
            None => (
                self.popular(r),
                r.one_of(&[each / 2, each, 2 * each, 8 * each, 30 * each, MOST_KW]),
            ),
        };
        for _ in 0..count {
            let pair = self.pair(&popular, r);
            let kw = self.kw_of_commitment(pair, most, r);
            self.add_new_use(pair, kw, r);
        }
    }

    /// Pre-RA commitments, together from a small part of what Step 3 leaves to far above it. Some
    /// interties are asked for just what is left.
    fn pre_ra_commitments(&mut self, r: &mut Numbers) {
        if !self.full && self.crowded.is_none() && r.once_in(5) {
            return;
        }
        let count = self.count(self.draft.room(), r);
        let each = self.left.iter().sum::<u64>() / count.max(1) as u64;
        let (popular, most) = match self.crowded {
            Some((crowd, _)) => (vec![crowd], each / 8),
            None => (
                self.popular(r),
                r.one_of(&[each / 8, each / 4, each / 2, each, 8 * each, MOST_KW]),
            ),
        };
        for _ in 0..count {
            let pair = self.pair(&popular, r);
            let in_crowd = self.crowded.is_some_and(|(crowd, _)| crowd == pair.0);
            let kw =
                self.kw_of_commitment(pair, if in_crowd { self.left[pair.0] } else { most }, r);
            self.add_pre_ra(pair, kw, r);
        }
        let exact = r.one_of(&[2, 8, 1_000]);
        for intertie in 0..self.interties() {
            if self.crowded.is_none() && r.once_in(exact) {
                self.ask_for_all(intertie, r);
            }
        }
    }

    /// The kW of a commitment of a pair: of a size with its E, if it has any, or up to `most`.
    fn kw_of_commitment(
        &self,
        (intertie, holder): (usize, usize),
        most: u64,
        r: &mut Numbers,
    ) -> u64 {
        match self.existing[intertie][holder] {
            existing if existing > 0 && r.once_in(2) => near(existing, r),
            _ => part(most, r),
        }
    }

    /// Raises the claims of Step 4a on an intertie to what Step 3 leaves there, or to 1 kW more.
    fn ask_for_all(&mut self, intertie: usize, r: &mut Numbers) {
        let holder = r.index(self.holders());
        let pairs = || self.pre_ra[intertie].iter().zip(&self.existing[intertie]);
        let claims: u64 = pairs()
            .map(|(&kw, &existing)| kw.saturating_sub(existing))
            .sum();
        let unused = self.existing[intertie][holder].saturating_sub(self.pre_ra[intertie][holder]);
        let kw = (self.left[intertie] + r.below(2)).saturating_sub(claims) + unused;
        if self.draft.room() > 0 && (1..=MOST_KW).contains(&kw) {
            self.add_pre_ra((intertie, holder), kw, r);
        }
    }

    /// A few interties that most records of a kind are about; none if they are about all alike.
    fn popular(&self, r: &mut Numbers) -> Vec<usize> {
        let few = r.below(4);
        (0..few).map(|_| r.index(self.interties())).collect()
    }

    /// An intertie, rather a popular one, and a holder, rather a low one.
    fn pair(&self, popular: &[usize], r: &mut Numbers) -> (usize, usize) {
        let intertie = if popular.is_empty() || r.once_in(4) {
            r.index(self.interties())
        } else {
            r.one_of(popular)
        };
        let low = if r.once_in(4) {
            self.holders().min(3)
        } else {
            self.holders()
        };
        (intertie, r.index(low))
    }
}

/// The sizes of a sheet: the largest, and small ones more often than others.
pub fn sizes(r: &mut Numbers) -> (usize, usize) {
    let (interties, holders) = match r.below(16) {
        0 | 1 => return (MAX_INTERTIES, MAX_HOLDERS),
        2 | 3 => (MAX_INTERTIES, MAX_HOLDERS),
        4 => (1, MAX_HOLDERS),
        5 => (MAX_INTERTIES, 1),
        6..=11 => (8, 12),
        _ => (4, 6),
    };
    (1 + r.index(interties), 1 + r.index(holders))
}

/// The two interties of a crowded sheet; half of the sheets with two or more are crowded.
fn crowded(interties: usize, r: &mut Numbers) -> Option<(usize, usize)> {
    let first = r.index(interties);
    let second = (first + 1 + r.index(interties.max(2) - 1)) % interties;
    (interties > 1 && r.once_in(2)).then_some((first, second))
}

/// The limits: all alike or any, now and then 0.
fn limits(interties: usize, r: &mut Numbers) -> Vec<u64> {
    let most = r.one_of(&[
        3, 20, 100, 5_000, 5_000, 1_000_000, 1_000_000, MOST_KW, MOST_KW,
    ]);
    let style = r.below(50);
    let limit = |_| match style {
        0 => 0,
        1..=8 => most,
        _ if r.once_in(20) => 0,
        _ => part(most, r),
    };
    (0..interties).map(limit).collect()
}

/// Every rank once: falling, rising or in any order.
fn ranks(r: &mut Numbers) -> Vec<u32> {
    let mut ranks: Vec<u32> = (1..=MAX_RANK).collect();
    match r.below(4) {
        0 => {}
        1 => ranks.reverse(),
        _ => r.shuffle(&mut ranks),
    }
    ranks
}

/// A key of a record of a pair, with any years.
fn pair_key(kind: u32, (intertie, holder): (usize, usize), rank: u32, r: &mut Numbers) -> Key {
    let years = match r.below(3) {
        0 => r.one_of(&[1, MAX_YEARS]),
        _ => 1 + r.below(MAX_YEARS.into()) as u32,
    };
    Key {
        kind,
        holder: holder as u32,
        intertie: intertie as u32,
        rank,
        years,
    }
}

/// A quantity from 1 to `most`, often at one of the ends.
fn part(most: u64, r: &mut Numbers) -> u64 {
    let most = most.clamp(1, MOST_KW);
    match r.below(8) {
        0 => 1,
        1 => most,
        _ => 1 + r.below(most),
    }
}

/// A quantity just below, at or above `kw`, or half of it, or twice.
fn near(kw: u64, r: &mut Numbers) -> u64 {
    r.one_of(&[kw - 1, kw, kw + 1, kw / 2, 2 * kw])
        .clamp(1, MOST_KW)
}

/// The kW of records that together have `kw`, each as large as a record may be, the last one smaller.
pub fn kw_records(kw: u64) -> impl Iterator<Item = u64> {
    (0..kw.div_ceil(MOST_KW)).map(move |before| (kw - before * MOST_KW).min(MOST_KW))
}
