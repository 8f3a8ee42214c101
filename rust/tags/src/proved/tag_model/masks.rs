// Made of crates/tag_model/src/masks.rt, where the contracts are, by rust/generate.

//! Masks of tags: those of one word, a bit each.

use crate::proved::tag_layout::Layout;
use core::ops::Range;

/// Whether there is such a word, and it uses all places of the mask.
#[inline]
pub(crate) fn is_mask_of(layout: Layout, word: u32, mask: u64) -> bool {
    word < layout.words() && mask <= layout.usable(word)
}

/// The tags of a word.
#[inline]
pub(crate) fn tags_of(layout: Layout, word: u32) -> Range<u32> {
    let first = layout.tag_at(word, 0);
    first..first + layout.word_depth(word)
}

/// The tag's bit in its word.
#[inline]
pub(crate) fn mask_of(layout: Layout, tag: u32) -> u64 {
    1 << layout.place_of(tag)
}

/// Whether the tag's bit in the mask of this word is 1.
#[inline]
pub(crate) fn is_in_mask(layout: Layout, word: u32, mask: u64, tag: u32) -> bool {
    layout.word_of(tag) == word && (mask >> layout.place_of(tag)) & 1 == 1
}
