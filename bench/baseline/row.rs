//! The row of words that the agents of all tiles reach, by one operation on one word at a time: of one
//! thread, or of many.
use crate::packets::Op;
use std::sync::atomic::{AtomicU64, Ordering::SeqCst};

pub trait Row {
    fn load(&self, word: usize) -> u64;

    fn store(&mut self, word: usize, value: u64);

    /// Leaves 0, and gives what was there.
    fn take(&mut self, word: usize) -> u64;

    /// Gives what was there; nobody asks after a store.
    fn perform(&mut self, word: usize, op: Op) -> u64;
}

impl Row for [u64] {
    #[inline]
    fn load(&self, word: usize) -> u64 {
        self[word]
    }

    #[inline]
    fn store(&mut self, word: usize, value: u64) {
        self[word] = value;
    }

    #[inline]
    fn take(&mut self, word: usize) -> u64 {
        let place = &mut self[word];
        if *place == 0 { 0 } else { std::mem::take(place) }
    }

    #[inline]
    fn perform(&mut self, word: usize, op: Op) -> u64 {
        let place = &mut self[word];
        let before = *place;
        *place = op.apply(before);
        before
    }
}

impl Row for &[AtomicU64] {
    #[inline]
    fn load(&self, word: usize) -> u64 {
        self[word].load(SeqCst)
    }

    #[inline]
    fn store(&mut self, word: usize, value: u64) {
        self[word].store(value, SeqCst);
    }

    #[inline]
    fn take(&mut self, word: usize) -> u64 {
        self[word].swap(0, SeqCst)
    }

    #[inline]
    fn perform(&mut self, word: usize, op: Op) -> u64 {
        let place = &self[word];
        match op {
            Op::Load => place.load(SeqCst),
            Op::Store(value) => {
                place.store(value, SeqCst);
                value
            }
            Op::Swap(value) => place.swap(value, SeqCst),
            Op::Cas(expected, new) => {
                place.compare_exchange(expected, new, SeqCst, SeqCst).unwrap_or_else(|found| found)
            }
            Op::Add(value) => place.fetch_add(value, SeqCst),
            Op::And(value) => place.fetch_and(value, SeqCst),
            Op::Or(value) => place.fetch_or(value, SeqCst),
            Op::Xor(value) => place.fetch_xor(value, SeqCst),
            Op::Max(value) => place.fetch_max(value, SeqCst),
            Op::Min(value) => place.fetch_min(value, SeqCst),
        }
    }
}
