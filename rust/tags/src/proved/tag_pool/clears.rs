// Made of crates/tag_pool/src/clears.rt, where the contracts are, by rust/generate.

//! Clears of one tag.

use crate::proved::tag_pool::fault::TagFault;
use crate::proved::tag_pool::hand::Hand;
use crate::proved::tag_pool::kind::Kind;
use crate::proved::tag_pool::pool::Pool;

pub(crate) mod batches;
pub(crate) mod lists;
mod masks;

impl<R: Copy> Pool<R> {
    /// Clears a held tag, and tells nobody: the caller has to see to it, among tags of its kind. As in
    /// `sbitmap_queue_clear` (lib/sbitmap.c) the tag is only set aside: the next sweep of its word frees it. Returns the
    /// tag's kind. `NoSuchTag` means that the number is not below the total, `NotHeld` that the hand does not hold the tag;
    /// nothing changes then.
    #[inline]
    pub fn clear_quietly(&self, hand: &mut Hand<R>, tag: u32) -> Result<Kind, TagFault> {
        if tag < hand.reserved_count {
            hand.reserved.clear(&self.reserved, tag)?;
            return Ok(Kind::Reserved);
        }
        hand.ordinary.clear(&self.ordinary, tag - hand.reserved_count)?;
        Ok(Kind::Ordinary)
    }

    /// Clears a tag that the hand holds, like `clear_quietly` but for the checks.
    #[inline]
    pub fn clear_held_quietly(&self, hand: &mut Hand<R>, tag: u32) {
        // A branch for each set takes fewer instructions than set and number as one value, or a loan of the tag's side.
        if tag < self.reserved_count {
            hand.reserved.put(&self.reserved, tag)
        } else {
            hand.ordinary.put(&self.ordinary, tag - self.reserved_count)
        }
    }
}
