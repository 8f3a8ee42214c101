// Made of crates/tag_core/src/spots.rt, where the contracts are, by rust/generate.

//! Where the words by which callers wait, the words, the cleared sets and the states of the tags are in the table. Nothing
//! else knows the stride.

use crate::proved::tag_core::caller::Caller;
use crate::proved::tag_layout::Layout;

/// Distance between used words of the table, in words of 8 bytes: one cache line.
const STRIDE: usize = 8;

/// Number of cache lines before the first word: one for the spare word, the word of all who wait and the clock, and eight
/// for the berths.
const HEAD: usize = 9;

/// The index of the spare word, which shows nothing.
pub(crate) const SPARE: usize = 0;

/// The index of the word of all who wait.
#[inline]
pub(crate) fn waiters_spot() -> usize {
    1
}

/// The index of the clock of turns, which only callers that list themselves change.
#[inline]
pub(crate) fn clock_spot() -> usize {
    2
}

/// The index of a caller's berth. Eight berths share a cache line, since whoever tells looks at all of them.
#[inline]
pub(crate) fn berth_spot(number: u32) -> usize {
    number as usize + STRIDE
}

/// The index of a word in the table.
#[inline]
pub(crate) fn word_spot(word: u32) -> usize {
    STRIDE * (2 * word as usize + HEAD)
}

/// The index of a word's cleared set in the table.
#[inline]
pub(crate) fn aside_spot(word: u32) -> usize {
    STRIDE * (2 * word as usize + HEAD + 1)
}

/// The index of a tag's state in the table.
#[inline]
pub(crate) fn state_spot(layout: Layout, tag: u32) -> usize {
    STRIDE * (2 * layout.words() as usize + tag as usize + HEAD)
}

/// The index of the first tag's state.
#[inline]
pub(crate) fn first_state(layout: Layout) -> u32 {
    (STRIDE * (2 * layout.words() as usize + HEAD)) as u32
}

impl<R> Caller<R> {
    /// The index of a tag's state.
    #[inline]
    pub(crate) fn state_spot(&self, tag: u32) -> usize {
        self.states as usize + STRIDE * tag as usize
    }
}

/// Number of words in the table.
#[inline]
pub(crate) fn table_words(layout: Layout) -> usize {
    STRIDE * (2 * layout.words() as usize + layout.depth() as usize + HEAD)
}
