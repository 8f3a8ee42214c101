// Made of crates/tag_queue/src/slots.rt, where the contracts are, by rust/generate.

//! The slots of held tags, and how tags pass from hand to hand: calls of the pool, by which nothing is counted.

use crate::proved::tag_pool::TagFault;
use crate::proved::tag_queue::hand::QueueHand;
use crate::proved::tag_queue::queue::Queue;

impl<R: Copy> Queue<R> {
    /// Returns the value in the slot of a held tag, and is refused, as `Pool::read`.
    #[inline]
    pub fn read(&self, hand: &mut QueueHand<R>, tag: u32) -> Result<R, TagFault> {
        self.pool.read(&mut hand.inner, tag)
    }

    /// Returns the value in the slot of a tag that the hand holds, without the checks.
    #[inline]
    pub fn read_held(&self, hand: &mut QueueHand<R>, tag: u32) -> R {
        self.pool.read_held(&mut hand.inner, tag)
    }

    /// Writes the slot of a held tag, and returns its former value, and is refused, as `Pool::write`.
    #[inline]
    pub fn write(&self, hand: &mut QueueHand<R>, tag: u32, value: R) -> Result<R, TagFault> {
        self.pool.write(&mut hand.inner, tag, value)
    }

    /// Writes the slot of a tag that the hand holds, without the checks, and returns its former value.
    #[inline]
    pub fn write_held(&self, hand: &mut QueueHand<R>, tag: u32, value: R) -> R {
        self.pool.write_held(&mut hand.inner, tag, value)
    }

    /// Gives up a held tag with its slot, so that another hand can take it, and is refused, as `Pool::post`.
    #[inline]
    pub fn post(&self, hand: &mut QueueHand<R>, tag: u32) -> Result<(), TagFault> {
        self.pool.post(&mut hand.inner, tag)
    }

    /// Gives up a held tag with its slot and a note that any hand may read, and is refused, as `Pool::post_noted`.
    #[inline]
    pub fn post_noted(&self, hand: &mut QueueHand<R>, tag: u32, note: u64) -> Result<(), TagFault> {
        self.pool.post_noted(&mut hand.inner, tag, note)
    }

    /// Returns the note of a posted tag, or `None` if it is not posted, and is refused, as `Pool::read_note`.
    #[inline]
    pub fn read_note(&self, hand: &mut QueueHand<R>, tag: u32) -> Result<Option<u64>, TagFault> {
        self.pool.read_note(&mut hand.inner, tag)
    }

    /// Takes a posted tag with its slot, and is refused, as `Pool::take`.
    #[inline]
    pub fn take(&self, hand: &mut QueueHand<R>, tag: u32) -> Result<(), TagFault> {
        self.pool.take(&mut hand.inner, tag)
    }
}
