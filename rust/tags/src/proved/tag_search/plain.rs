// Made of crates/tag_search/src/plain.rt, where the contracts are, by rust/generate.

//! The plain words of one caller, without atomics.

use crate::base::vec::{AllocError, Global, Vec};
use crate::proved::tag_layout::Layout;
use crate::proved::tag_search::place::bit_of;

/// The words of a map that only one caller uses.
pub struct PlainPort {
    pub(crate) layout: Layout,
    /// The words: 1 is taken.
    pub(crate) word: Vec<u64>,
    /// The cleared set of each word: 1 is set aside, that is, given back but still taken in the word.
    pub(crate) cleared: Vec<u64>,
}

impl PlainPort {
    /// Opens words with all tags free.
    #[inline]
    pub fn open(alloc: Global, layout: Layout) -> Result<PlainPort, AllocError> {
        let count = layout.words() as usize;
        let word = Vec::filled(alloc, 0u64, count)?;
        let cleared = Vec::filled(alloc, 0u64, count)?;
        Ok(PlainPort { layout, word, cleared })
    }

    /// Returns whether the tag is taken and not set aside.
    #[inline]
    pub fn taken(&self, tag: u32) -> bool {
        let word = self.layout.word_of(tag) as usize;
        let bit = bit_of(self.layout, tag);
        self.word[word] & bit != 0 && self.cleared[word] & bit == 0
    }

    /// Returns the cleared set of a word: 1 is set aside.
    #[inline]
    pub fn look_aside(&mut self, word: u32) -> u64 {
        self.cleared[word as usize]
    }

    /// Sets a taken tag aside, for a later sweep to free.
    #[inline]
    pub fn put(&mut self, tag: u32) {
        let word = self.layout.word_of(tag) as usize;
        let bit = bit_of(self.layout, tag);
        self.cleared[word] |= bit;
    }

    /// Frees the taken tags of the mask at once.
    #[inline]
    pub fn give(&mut self, word: u32, mask: u64) {
        self.word[word as usize] &= !mask;
    }
}
