// Made of crates/tag_core/src/clears.rt, where the contracts are, by rust/generate.

//! How held tags are given back.

use crate::proved::tag_core::caller::Caller;
use crate::proved::tag_core::map::Map;
use crate::proved::tag_core::spots::{aside_spot, word_spot};

impl<R> Map<R> {
    /// Frees held tags of one word at once: clears their bits. One step, `fetch_sub`: the bits are known to be 1.
    #[inline]
    pub fn give(&self, caller: &mut Caller<R>, word: u32, mask: u64) {
        let table = &self.table.shared;
        // The caller holds all of these tags, so each of their bits is 1 there: a difference clears them in one instruction.
        // To clear them by an and, and to return the word as it was, takes a loop.
        table.fetch_sub(&mut caller.seat, word_spot(word), mask);
        let held = caller.held[word as usize] & !mask;
        caller.held[word as usize] = held;
        caller.back += mask.count_ones() as u64;
    }

    /// Sets a held tag aside: its bit in the word stays 1, its bit in the cleared set becomes 1, and the next sweep of
    /// the word frees it. One step, like `sbitmap_deferred_clear_bit` (include/linux/sbitmap.h): `fetch_add`, where the
    /// kernel has `set_bit`, since the bit is known to be 0.
    #[inline]
    pub fn put(&self, caller: &mut Caller<R>, tag: u32) {
        let word = caller.layout.word_of(tag);
        let bit = 1u64 << caller.layout.place_of(tag);
        let table = &self.table.shared;
        // The caller holds the tag, so its bit is 0 there: a sum sets it in one instruction.
        table.fetch_add(&mut caller.seat, aside_spot(word), bit);
        let held = caller.held[word as usize] - bit;
        caller.held[word as usize] = held;
        caller.back += 1;
    }
}
