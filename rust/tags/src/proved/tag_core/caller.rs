// Made of crates/tag_core/src/caller.rt, where the contracts are, by rust/generate.

//! A caller of a map.

use crate::base::table::Seat;
use crate::base::vec::Vec;
use crate::proved::step_ledger::Numbered;
use crate::proved::tag_layout::Layout;

/// Words of padding, 8 bytes each, behind what one caller alone writes.
pub(crate) const APART: usize = 16;

/// One of a map's callers, which alone change it. If a caller is dropped, its tags stay held for ever.
pub struct Caller<R> {
    /// What it makes steps with. The view has this caller's record, and the seat the slots of its tags, in order.
    pub(crate) seat: Seat<R>,
    /// The layout of its map.
    pub(crate) layout: Layout,
    /// The index of the first tag's state in the table, so that no access to a slot computes the number of words.
    pub(crate) states: u32,
    /// Its number, from 0.
    pub(crate) number: u32,
    /// The most tags that it may ever win, at most 2^48.
    pub(crate) life: u64,
    /// The tags that it holds, a mask for each word: 1 is held.
    pub(crate) held: Vec<u64>,
    /// Number of tags won so far, at most `life`.
    pub(crate) won: u64,
    /// Number of tags put or given back so far, including tags taken from others.
    pub(crate) back: u64,
    /// Padding, never read: callers that are adjacent in memory are 128 bytes apart, so the steps of one do not slow
    /// another down.
    pub(crate) apart: [u64; APART],
}

impl<R> Numbered for Caller<R> {
    #[inline]
    fn number(&self) -> u32 {
        self.number
    }
}

impl<R> Caller<R> {
    /// Number of tags that this caller has won so far, at most its life. No step.
    #[inline]
    pub fn won(&self) -> u64 {
        self.won
    }

    /// Number of tags that this caller has put or given back so far, including tags that it took from others. No step.
    #[inline]
    pub fn back(&self) -> u64 {
        self.back
    }
}
