//! Years that full sheets open to and calls lead to, in each stage.

use crate::numbers::Numbers;
use crate::{layout, sheets};
use independent::share_out::MAX_HOLDERS;
use independent::sheet::MAX_INTERTIES;
use independent::year::{Year, GRANT_WORDS, STATE_WORDS};

/// A value that begins at a multiple of 64 bytes.
#[derive(Clone)]
#[repr(align(64))]
pub struct Aligned<T>(pub T);

/// A year as the independent program has it and as the library's words.
#[derive(Clone)]
pub struct Both {
    year: Box<Aligned<Year>>,
    words: Box<Aligned<[u32; STATE_WORDS]>>,
}

impl Both {
    /// A blank year and words of 0.
    pub fn blank() -> Both {
        Both {
            year: Box::new(Aligned(Year::blank())),
            words: Box::new(Aligned([0; STATE_WORDS])),
        }
    }

    fn of(year: &Year) -> Both {
        let mut both = Both::blank();
        both.year.0.clone_from(year);
        layout::write(year, &mut both.words.0);
        both
    }

    pub fn year(&self) -> &Year {
        &self.year.0
    }

    pub fn words(&self) -> &[u32] {
        &self.words.0
    }

    /// Both sides at once, to be written.
    pub fn sides(&mut self) -> (&mut Year, &mut [u32]) {
        (&mut self.year.0, &mut self.words.0)
    }
}

/// The year that sheet `number` opens to, after trades.
fn traded(number: usize) -> (Box<Year>, Numbers) {
    let mut r = Numbers::new(23, number as u64);
    let mut year = Box::new(Year::blank());
    let opened = year.open(&sheets::full(number), STATE_WORDS);
    assert_eq!(opened.refusal, 0);
    assert!(year.step5_share.iter().all(|&kw| kw > 100_000));
    for _ in 0..64 {
        let (seller, buyer) = (r.index(MAX_HOLDERS), r.index(MAX_HOLDERS));
        let kw = 1 + r.below(u64::from(year.unplaced[seller]) / 8 + 1);
        year.trade(STATE_WORDS, seller as u32, buyer as u32, kw);
    }
    (year, r)
}

/// Requests of every holder on every intertie, for a part of what it has unplaced.
fn request_all(year: &mut Year, part: u64, r: &mut Numbers) {
    for holder in 0..MAX_HOLDERS {
        let each = u64::from(year.unplaced[holder]) / part / MAX_INTERTIES as u64;
        for intertie in 0..MAX_INTERTIES {
            let kw = 1 + r.below(2 * each.max(1));
            year.request(STATE_WORDS, holder as u32, intertie as u32, kw);
        }
    }
}

fn close(year: &mut Year) {
    let closed = year.close(STATE_WORDS, &mut [0; GRANT_WORDS]);
    assert_eq!(closed.refusal, 0);
}

/// Stage 1, after trades.
pub fn trading(number: usize) -> Both {
    Both::of(&traded(number).0)
}

/// Stage 2, with every pair pending. `crowded` leaves a quarter of each intertie's unassigned kW, so that
/// all interties are contended; else about half of them are.
pub fn requested(number: usize, crowded: bool) -> Both {
    let (mut year, mut r) = traded(number);
    close(&mut year);
    request_all(&mut year, 1, &mut r);
    if crowded {
        for intertie in 0..MAX_INTERTIES {
            let gone = year.unassigned[intertie] - year.unassigned[intertie] / 4;
            year.unassigned[intertie] -= gone;
            year.taken[intertie][0] += gone;
        }
    }
    assert!(year.is_orderly());
    Both::of(&year)
}

/// Stage 2, with a third of the unplaced kW pending.
pub fn requesting(number: usize) -> Both {
    let (mut year, mut r) = traded(number);
    close(&mut year);
    request_all(&mut year, 3, &mut r);
    Both::of(&year)
}

/// Stage 4, with kW placed on every pair, `locks` of them locked, and kW still unassigned. The locks
/// are of every holder; with a step of 1 on few interties, with a larger one on most of them.
pub fn open(number: usize, locks: usize, step: usize) -> Both {
    let (mut year, mut r) = traded(number);
    for _ in 0..3 {
        request_all(&mut year, 24, &mut r);
        close(&mut year);
    }
    let mut left = locks;
    let pairs = MAX_HOLDERS * MAX_INTERTIES;
    for n in 0..pairs {
        let pair = n * step % pairs;
        let (holder, intertie) = (pair % MAX_HOLDERS, pair / MAX_HOLDERS);
        let kw = u64::from(year.placed[intertie][holder] / 16);
        let term = 1 + r.below(30) as u32;
        if left > 0 {
            let locked = year.lock(STATE_WORDS, holder as u32, intertie as u32, kw, term);
            left -= usize::from(locked.refusal == 0);
        }
    }
    assert_eq!(left, 0);
    Both::of(&year)
}
