// Made of crates/tag_queue/src/clears/masks.rt, where the contracts are, by rust/generate.

//! Clears of the ordinary tags of a mask, as a batch get answers it.

use crate::proved::tag_pool::TagFault;
use crate::proved::tag_queue::hand::QueueHand;
use crate::proved::tag_queue::queue::Queue;
use crate::proved::wake_book::Waking;

impl<R: Copy> Queue<R> {
    /// Clears the held ordinary tags of a mask, in which bit `i` is tag `first + i` as in the answer of `get_batch`, counts
    /// them if any hand waits in a group, and answers as `W` says whom this granted a wakeup. `BadCount` means that the mask
    /// is empty; `NoSuchTag` that a number is no ordinary tag's; `NotHeld` that the hand does not hold a tag. Nothing changes
    /// on an error.
    pub fn clear_mask<W: Waking>(&self, hand: &mut QueueHand<R>, first: u32, mask: u64) -> Result<W::Answer, TagFault> {
        self.pool.clear_mask_quietly(&mut hand.inner, first, mask)?;
        Ok(self.complete::<W>(hand, mask.count_ones()))
    }
}
