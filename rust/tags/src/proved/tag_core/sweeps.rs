// Made of crates/tag_core/src/sweeps.rt, where the contracts are, by rust/generate.

//! How tags that were set aside become free.

use crate::proved::tag_core::caller::Caller;
use crate::proved::tag_core::kept::Kept;
use crate::proved::tag_core::map::Map;
use crate::proved::tag_core::spots::{aside_spot, word_spot};

impl<R> Map<R> {
    /// Frees the tags in a word's cleared set, as `sbitmap_deferred_clear` (lib/sbitmap.c) does: empties the set, and
    /// then clears the bits of its tags in the word. Two steps, `swap` and `fetch_sub`. Returns the mask of the tags
    /// freed: 0, after the first step, if the set was empty.
    #[inline]
    pub fn sweep(&self, caller: &mut Caller<R>, word: u32) -> u64 {
        let table = &self.table.shared;
        let mask = table.swap(&mut caller.seat, aside_spot(word), 0);
        if mask == 0 {
            return 0;
        }
        // All of it is taken: a difference clears it in one instruction, where an and takes a loop.
        table.fetch_sub(&mut caller.seat, word_spot(word), mask);
        mask
    }

    /// Takes the tags in a word's cleared set, of which the least stays with the caller, and frees the others: `swap`, and
    /// `fetch_sub` only where there are others. What is kept stands in the caller's list as a step of its own, behind the
    /// swap, which makes it too. `None`, after the swap alone, if the set was empty.
    #[inline]
    pub fn keep_least(&self, caller: &mut Caller<R>, word: u32) -> Option<Kept> {
        let table = &self.table.shared;
        let mask = table.swap(&mut caller.seat, aside_spot(word), 0);
        if mask == 0 {
            return None;
        }
        let place = mask.trailing_zeros();
        let bit = 1u64 << place;
        let held = caller.held[word as usize] | bit;
        caller.held[word as usize] = held;
        caller.won += 1;
        let rest = mask & !bit;
        if rest != 0 {
            // All of it is taken, as in `sweep`.
            table.fetch_sub(&mut caller.seat, word_spot(word), rest);
        }
        Some(Kept { place, rest })
    }
}
