// Made of crates/tag_queue/src/looks.rt, where the contracts are, by rust/generate.

use crate::proved::tag_pool::{Kind, Shown};
use crate::proved::tag_queue::hand::QueueHand;
use crate::proved::tag_queue::queue::Queue;

impl<R: Copy> Queue<R> {
    /// Lists the busy tags as `Pool::busy` does, and returns how many there are.
    pub fn busy(&self, hand: &mut QueueHand<R>, into: &mut [u64]) -> u32 {
        self.pool.busy(&mut hand.inner, into)
    }

    /// Returns the sizes of a set and the counts of its busy tags, as `Pool::show` does.
    pub fn show(&self, hand: &mut QueueHand<R>, kind: Kind) -> Shown {
        self.pool.show(&mut hand.inner, kind)
    }

    /// Writes the busy tags of a set as bytes, and returns how many, as `Pool::dump` does.
    pub fn dump(&self, hand: &mut QueueHand<R>, kind: Kind, into: &mut [u8]) -> u32 {
        self.pool.dump(&mut hand.inner, kind, into)
    }

    /// Moves the hand's hint in each set to the first tag of its own part, as `Pool::place` does.
    pub fn place(&self, hand: &mut QueueHand<R>) {
        self.pool.place(&mut hand.inner);
    }

    /// It changes nothing.
    pub fn meet(&self, first: &mut QueueHand<R>, second: &mut QueueHand<R>) {
        self.pool.meet(&mut first.inner, &mut second.inner);
    }

    /// Establishes that the second hand does not hold a tag that the first one holds. This makes no step.
    pub fn apart(&self, first: &mut QueueHand<R>, second: &mut QueueHand<R>, tag: u32) {
        self.pool.apart(&mut first.inner, &mut second.inner, tag);
    }
}
