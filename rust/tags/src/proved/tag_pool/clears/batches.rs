// Made of crates/tag_pool/src/clears/batches.rt, where the contracts are, by rust/generate.

//! Clears of several ordinary tags at once.

use crate::proved::tag_bell::Woken;
use crate::proved::tag_core::{Caller, Map};
use crate::proved::tag_pool::clears::lists::{are_below, are_distinct, are_from};
use crate::proved::tag_pool::fault::TagFault;
use crate::proved::tag_pool::hand::Hand;
use crate::proved::tag_pool::kind::Kind;
use crate::proved::tag_pool::pool::Pool;
use crate::proved::tag_pool::side::Side;
use crate::proved::tag_search::after_clear;

/// The most tags that one call gets or clears, a bit of a mask for each.
pub const MAX_BATCH: usize = 64;

impl<R: Copy> Pool<R> {
    /// Clears 1 to 64 held ordinary tags, then tells as many of those that wait, and wakes the sleepers among them. Returns
    /// whom it told. Like `sbitmap_queue_clear_batch` (lib/sbitmap.c) it frees the tags at once, where `clear` only sets its
    /// tag aside. Successive tags of the list that lie in one word take one step. `BadCount` means no tag, or more than 64;
    /// `NoSuchTag` that a number is not below the total or its tag is reserved; `NotHeld` that a tag is not held or named
    /// twice. Nothing changes on an error.
    #[inline]
    pub fn clear_batch(&self, hand: &mut Hand<R>, tags: &[u32]) -> Result<Woken, TagFault> {
        self.clear_batch_quietly(hand, tags)?;
        Ok(self.wake(hand, Kind::Ordinary, tags.len() as u32))
    }

    /// Clears the tags as `clear_batch` does, but tells nobody: the caller has to see to them. It is refused as
    /// `clear_batch` is: `BadCount`, `NoSuchTag`, `NotHeld`.
    #[inline]
    pub fn clear_batch_quietly(&self, hand: &mut Hand<R>, tags: &[u32]) -> Result<(), TagFault> {
        self.check_batch(hand, tags)?;
        self.clear_batch_held_quietly(hand, tags);
        Ok(())
    }

    /// Clears 1 to 64 ordinary tags that the hand holds, like `clear_batch_quietly` but for the checks.
    #[inline]
    pub fn clear_batch_held_quietly(&self, hand: &mut Hand<R>, tags: &[u32]) {
        hand.ordinary.give_list(&self.ordinary, self.reserved_count, tags);
    }

    /// Returns `Ok` if `clear_batch` would clear this list, and otherwise its refusal. This makes no step. The
    /// refusals, in order: `BadCount`, `NoSuchTag`, `NotHeld`.
    #[inline]
    pub fn check_batch(&self, hand: &Hand<R>, tags: &[u32]) -> Result<(), TagFault> {
        if tags.is_empty() || tags.len() > MAX_BATCH {
            return Err(TagFault::BadCount);
        }
        if !self.are_ordinary(tags) {
            return Err(TagFault::NoSuchTag);
        }
        if !hand.holds_once(tags) {
            return Err(TagFault::NotHeld);
        }
        Ok(())
    }

    /// Returns whether each number in the list is an ordinary tag's.
    #[inline]
    fn are_ordinary(&self, tags: &[u32]) -> bool {
        are_from(tags, self.reserved_count) && are_below(tags, self.total)
    }
}

impl<R> Hand<R> {
    /// Returns whether the hand holds each tag in the list, and none is named twice.
    #[inline]
    fn holds_once(&self, tags: &[u32]) -> bool {
        for tag in tags {
            if !self.holds(*tag) {
                return false;
            }
        }
        are_distinct(tags)
    }
}

impl<R> Side<R> {
    /// Frees held tags of the set whose first tag is `first`, and moves the hint to the last of them, unless it is round
    /// robin. Successive tags of the list that lie in one word take one step.
    #[inline]
    pub(crate) fn give_list(&mut self, map: &Map<R>, first: u32, tags: &[u32]) {
        give_all(map, &mut self.caller, first, tags);
        after_clear(&mut self.hint, tags[tags.len() - 1] - first);
    }
}

/// Frees held tags of the map, in whose numbers the first tag of the set is 0. Successive tags of the list that lie in one
/// word take one step.
#[inline]
fn give_all<R>(map: &Map<R>, caller: &mut Caller<R>, first: u32, tags: &[u32]) {
    let layout = map.layout();
    let mut word = layout.word_of(tags[0] - first);
    let mut mask = 0u64;
    for tag in tags {
        let number = *tag - first;
        let here = layout.word_of(number);
        let bit = 1u64 << layout.place_of(number);
        if here == word {
            mask |= bit;
        } else {
            map.give(caller, word, mask);
            word = here;
            mask = bit;
        }
    }
    map.give(caller, word, mask);
}
