// Made of crates/tag_pool/src/clears/masks/words.rt, where the contracts are, by rust/generate.

//! The tags of a mask, word by word: tested and freed.

use crate::proved::tag_core::{Caller, Map};
use crate::proved::tag_layout::Layout;

/// The bits of a mask whose tags are in this word, at the places of the word.
#[inline]
fn part_in(layout: Layout, first: u32, mask: u64, word: u32) -> u64 {
    let start = layout.tag_at(word, 0);
    let moved = if start < first {
        mask << layout.place_of(first)
    } else {
        mask >> (start - first)
    };
    moved & layout.usable(word)
}

/// A mask whose tags are all in one word, moved to their places in that word.
#[inline]
fn placed(layout: Layout, first: u32, mask: u64, _last: u32) -> u64 {
    let placed = mask << layout.place_of(first);
    placed
}

/// Returns whether the caller holds each tag of a mask, by one test for each word. Tags of several words are tested out
/// of line, so that a call for those of one word is short.
#[inline]
pub(crate) fn are_held<R>(map: &Map<R>, caller: &Caller<R>, first: u32, mask: u64, last: u32) -> bool {
    let layout = map.layout();
    let word = layout.word_of(first);
    if layout.word_of(last) != word {
        return are_held_across(map, caller, first, mask, last);
    }
    caller.holds_all(word, placed(layout, first, mask, last))
}

/// Frees the held tags of a mask by one step for each word that has any of them.
#[inline]
pub(crate) fn give_mask<R>(map: &Map<R>, caller: &mut Caller<R>, first: u32, mask: u64, last: u32) {
    let layout = map.layout();
    let word = layout.word_of(first);
    if layout.word_of(last) != word {
        return give_mask_across(map, caller, first, mask, last);
    }
    map.give(caller, word, placed(layout, first, mask, last));
}

/// Like `are_held`, for a mask whose tags may be in several words: by one test for each word.
#[inline]
fn are_held_across<R>(map: &Map<R>, caller: &Caller<R>, first: u32, mask: u64, last: u32) -> bool {
    let layout = map.layout();
    let from = layout.word_of(first);
    let to = layout.word_of(last);
    for word in from..to + 1 {
        if !caller.holds_all(word, part_in(layout, first, mask, word)) {
            return false;
        }
    }
    true
}

/// Like `give_mask`, for a mask whose tags may be in several words.
#[inline]
fn give_mask_across<R>(map: &Map<R>, caller: &mut Caller<R>, first: u32, mask: u64, last: u32) {
    let layout = map.layout();
    let from = layout.word_of(first);
    let to = layout.word_of(last);
    for word in from..to + 1 {
        let here = part_in(layout, first, mask, word);
        if here != 0 {
            map.give(caller, word, here);
        }
    }
}
