// Made of crates/tag_search/src/place.rt, where the contracts are, by rust/generate.

//! The place of a tag in its word, and its bit.

use crate::proved::tag_layout::Layout;

/// Returns the place of a tag in its word, 0 to 63. Numbers past the depth have one too.
#[inline]
pub fn place_in_word(layout: Layout, tag: u32) -> u32 {
    tag & ((1 << layout.shift()) - 1)
}

/// Returns the mask with the bit of a tag in its word.
#[inline]
pub fn bit_of(layout: Layout, tag: u32) -> u64 {
    1 << place_in_word(layout, tag)
}

/// Returns the least place of a word whose bit is 0 in these bits. It tests the place that it found, so it need not count
/// the places that the word uses.
#[inline(always)]
pub(crate) fn first_free(layout: Layout, word: u32, bits: u64) -> Option<u32> {
    let shift = layout.shift();
    let place = (!bits).trailing_zeros();
    if place >> shift != 0 {
        return None;
    }
    if (word << shift) + place >= layout.depth() {
        return None;
    }
    Some(place)
}
