// Made of crates/tag_queue/src/hand.rt, where the contracts are, by rust/generate.

//! The handle through which one thread uses a queue.

use crate::proved::step_ledger::Numbered;
use crate::proved::tag_pool::Hand;
use crate::proved::wake_book::{Announcement, Groups, Sighting, Teller, Waiter};

/// One thread's handle on a queue. It holds tags, counts completions, wakes other hands, and waits.
pub struct QueueHand<R> {
    pub(crate) teller: Teller,
    pub(crate) waiter: Waiter,
    /// Its latest look for waiters, and what it had done in the pool by then.
    pub(crate) sighting: Sighting<Hand<R>>,
    /// When it announced its latest sleep, and what it had done in the pool by then. This has no bytes either.
    pub(crate) announcement: Announcement<Hand<R>>,
    /// The hand of the pool. Must be the last field: it ends with padding.
    pub(crate) inner: Hand<R>,
}

impl<R> Numbered for QueueHand<R> {
    fn number(&self) -> u32 {
        self.inner.number()
    }
}

impl<R> QueueHand<R> {
    /// Returns whether the hand holds the tag. This makes no step.
    pub fn holds(&self, tag: u32) -> bool {
        self.inner.holds(tag)
    }

    /// Returns whether the hand is in a wait group. This makes no step.
    #[inline]
    pub fn is_waiting(&self) -> bool {
        Groups::standing(&self.waiter).is_some()
    }

    /// Returns how many tags of both sets the hand has won so far, over all resizes. Tags that it took are not among
    /// them. This makes no step.
    #[inline]
    pub fn won(&self) -> u64 {
        self.inner.won()
    }

    /// Returns how many tags of both sets the hand has given back so far, over all resizes. Tags that it took are among
    /// them. This makes no step.
    #[inline]
    pub fn given(&self) -> u64 {
        self.inner.given()
    }
}
