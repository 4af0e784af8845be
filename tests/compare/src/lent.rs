//! Memory that a call is lent: a part of a longer buffer, so that it shows where something before it or behind it is
//! touched.

use crate::numbers::Numbers;
use std::hint::black_box;
use std::ops::{BitXorAssign, Range};

/// Words or bytes, some of which are lent.
#[derive(Clone, PartialEq)]
pub struct Lent<Word> {
    all: Vec<Word>,
    part: Range<usize>,
}

impl<Word: Clone + PartialEq> Lent<Word> {
    /// The given part is lent of all these.
    pub fn new(all: Vec<Word>, part: Range<usize>) -> Lent<Word> {
        Lent { all, part }
    }

    /// All of them are lent.
    pub fn whole(all: Vec<Word>) -> Lent<Word> {
        let part = 0..all.len();
        Lent { all, part }
    }

    /// These are lent, with some noise before them and behind.
    pub fn amid_noise(
        lent: &[Word],
        noise: fn(&mut Numbers, usize) -> Vec<Word>,
        r: &mut Numbers,
    ) -> Lent<Word> {
        let (before, behind) = (r.index(9), 8 + r.index(9));
        let all = [&noise(r, before)[..], lent, &noise(r, behind)].concat();
        Lent::new(all, before..before + lent.len())
    }

    /// The same memory, of which the first `length` are lent.
    pub fn lend_first(mut self, length: usize) -> Lent<Word> {
        self.part = 0..length;
        self
    }

    pub fn lent(&self) -> &[Word] {
        &self.all[self.part.clone()]
    }

    pub fn lent_mut(&mut self) -> &mut [Word] {
        &mut self.all[self.part.clone()]
    }

    /// What is lent and what isn't.
    pub fn all(&self) -> &[Word] {
        &self.all
    }

    /// Whether all of it is as it was before. Behind a black box the compiler can't take it for granted that what a call
    /// was lent to read stays.
    pub fn stays(&mut self, before: &Lent<Word>) -> bool {
        *black_box(self) == *before
    }
}

/// Lent words or bytes alike, to plant a fault in. Each function answers whether there was something to change.
pub trait Memory {
    /// Changes a bit of what is lent.
    fn change_lent(&mut self, r: &mut Numbers) -> bool;

    /// Changes a bit of the word or byte just behind.
    fn change_behind(&mut self, r: &mut Numbers) -> bool;
}

impl<Word: BitXorAssign + From<u8>> Memory for Lent<Word> {
    fn change_lent(&mut self, r: &mut Numbers) -> bool {
        if self.part.is_empty() {
            return false;
        }
        let at = self.part.start + r.index(self.part.len());
        self.all[at] ^= Word::from(1 << r.below(8));
        true
    }

    fn change_behind(&mut self, r: &mut Numbers) -> bool {
        let word = self.all.get_mut(self.part.end);
        let is_there = word.is_some();
        if let Some(word) = word {
            *word ^= Word::from(1 << r.below(8));
        }
        is_there
    }
}
