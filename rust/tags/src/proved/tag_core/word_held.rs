// Made of crates/tag_core/src/word_held.rt, where the contracts are, by rust/generate.

//! What a caller holds of one word.

use crate::proved::tag_core::caller::Caller;

impl<R> Caller<R> {
    /// Whether the caller holds each tag of a mask of one word.
    #[inline]
    pub fn holds_all(&self, word: u32, mask: u64) -> bool {
        mask & self.held[word as usize] == mask
    }

    /// The tags of a word that the caller holds, as a mask: 1 is held. It is 0 if the map has no such word. No step.
    #[inline]
    pub fn held_in(&self, word: u32) -> u64 {
        match self.held.get(word as usize) {
            Some(mask) => *mask,
            None => 0,
        }
    }
}
