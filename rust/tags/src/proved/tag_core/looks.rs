// Made of crates/tag_core/src/looks.rt, where the contracts are, by rust/generate.

//! Looks, which change nothing.

use crate::proved::tag_core::caller::Caller;
use crate::proved::tag_core::map::Map;
use crate::proved::tag_core::spots::{aside_spot, word_spot};
use crate::proved::tag_layout::Layout;

impl<R> Map<R> {
    /// How the map numbers its tags.
    #[inline]
    pub fn layout(&self) -> Layout {
        self.shape.layout
    }

    /// Number of callers of the map, 1 to 64.
    #[inline]
    pub fn callers(&self) -> u32 {
        self.shape.callers
    }

    /// Returns a word: a bit is 1 if its tag is taken. All tags of the word that the caller holds are found taken. One
    /// step, a load.
    #[inline]
    pub fn look(&self, caller: &mut Caller<R>, word: u32) -> u64 {
        let table = &self.table.shared;
        table.load(&mut caller.seat, word_spot(word))
    }

    /// Returns a word's cleared set: a bit is 1 if its tag is set aside. No tag that the caller holds is found there.
    /// One step, a load.
    #[inline]
    pub fn look_aside(&self, caller: &mut Caller<R>, word: u32) -> u64 {
        let table = &self.table.shared;
        table.load(&mut caller.seat, aside_spot(word))
    }

    /// Loads a word without a caller.
    #[inline]
    pub fn peek(&self, word: u32) -> u64 {
        self.table.shared.peek(word_spot(word))
    }

    /// Loads a word's cleared set without a caller.
    #[inline]
    pub fn peek_aside(&self, word: u32) -> u64 {
        self.table.shared.peek(aside_spot(word))
    }
}

impl<R> Caller<R> {
    /// Returns whether the caller holds the tag. No step.
    #[inline]
    pub fn holds(&self, tag: u32) -> bool {
        let mask = self.held[self.layout.word_of(tag) as usize];
        mask >> self.layout.place_of(tag) & 1 == 1
    }
}
