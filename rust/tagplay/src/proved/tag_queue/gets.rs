// Made of crates/tag_queue/src/gets.rt, where the contracts are, by rust/generate.

//! Gets: they take a tag of the pool, and look for waiters if their sweeps freed others.

use crate::proved::tag_pool::{Found, TagFault};
use crate::proved::tag_queue::hand::QueueHand;
use crate::proved::tag_queue::queue::Queue;

mod blocking;

impl<R: Copy> Queue<R> {
    /// Takes a free ordinary tag, which this hand alone holds until it clears or posts the tag. `None` means that each tag
    /// that the search looked at was found taken at some moment of the call, not that all were taken at one moment. If its
    /// sweeps freed tags that it did not take, it then looks for waiters and rings them, so that none of them sleeps beside
    /// such a tag. `Spent` means that the hand's life in the ordinary set is used up.
    #[inline(always)]
    pub fn get(&self, hand: &mut QueueHand<R>) -> Result<Option<u32>, TagFault> {
        let Found { answer, left } = self.get_quietly(hand)?;
        self.look_after(hand, left);
        Ok(answer)
    }

    /// Like `get`, but looks for no waiter: `left` is how many ordinary tags its sweeps freed and it did not take. The caller
    /// passes that number to `look_after`, or knows that nobody sleeps.
    #[inline]
    pub fn get_quietly(&self, hand: &mut QueueHand<R>) -> Result<Found<u32>, TagFault> {
        self.pool.get_quietly(&mut hand.inner)
    }

    /// Like `get`, but limited to `depth` tags of the ordinary set, which are shared out among its words in proportion. A
    /// word's share may be 0. `TooShallow` means that `depth` is 0 or below the minimum shallow depth. `Spent` is that of
    /// `get`.
    pub fn get_shallow(&self, hand: &mut QueueHand<R>, depth: u32) -> Result<Option<u32>, TagFault> {
        let Found { answer, left } = self.get_shallow_quietly(hand, depth)?;
        self.look_after(hand, left);
        Ok(answer)
    }

    /// Like `get_shallow`, but looks for no waiter (see `get_quietly`).
    #[inline]
    pub fn get_shallow_quietly(&self, hand: &mut QueueHand<R>, depth: u32) -> Result<Found<u32>, TagFault> {
        self.pool.get_shallow_quietly(&mut hand.inner, depth)
    }

    /// Takes up to `n` free ordinary tags out of `n` consecutive ones of one word, where `n` is 1 to the bits of a word.
    /// Returns the first of them and the mask of those won, in which bit 0 is that first tag. Under round robin it returns
    /// `None` and makes no step, as in the kernel (lib/sbitmap.c). `BadCount` means an `n` out of that range, `Spent` that
    /// the life does not suffice for `n` more tags.
    pub fn get_batch(&self, hand: &mut QueueHand<R>, n: u32) -> Result<Option<(u32, u64)>, TagFault> {
        let Found { answer, left } = self.get_batch_quietly(hand, n)?;
        self.look_after(hand, left);
        Ok(answer)
    }

    /// Like `get_batch`, but looks for no waiter (see `get_quietly`).
    #[inline]
    pub fn get_batch_quietly(&self, hand: &mut QueueHand<R>, n: u32) -> Result<Found<(u32, u64)>, TagFault> {
        self.pool.get_batch_quietly(&mut hand.inner, n)
    }

    /// Takes a reserved tag. Nobody waits for one. `NoReserved` means that there are none, `Spent` that the hand's life in the
    /// reserved set is used up.
    pub fn get_reserved(&self, hand: &mut QueueHand<R>) -> Result<Option<u32>, TagFault> {
        // No hand of a queue waits by the bell, so nobody can sleep beside those that the sweeps freed.
        let Found { answer, .. } = self.pool.get_reserved_quietly(&mut hand.inner)?;
        Ok(answer)
    }

    /// Looks for waiters after a get that left `left` tags free: if the active count tells of any, it rings up to
    /// `left` sleepers of each group, since a sleeper's own search may have come before these tags were free. With 0 it
    /// does nothing.
    #[inline(always)]
    pub fn look_after(&self, hand: &mut QueueHand<R>, left: u64) {
        if left != 0 {
            self.look_and_ring(hand, left);
        }
    }

    /// Loads the active count, and rings as many sleepers of each group as it tells of, up to `left`. It is out of line,
    /// so that a get is short where nothing was left.
    #[cold]
    #[inline(never)]
    fn look_and_ring(&self, hand: &mut QueueHand<R>, left: u64) {
        let (active, sighting) = self.groups.sight(&mut hand.waiter, &hand.inner);
        hand.sighting = sighting;
        if active != 0 {
            self.groups.nudge(&mut hand.waiter, active.min(left));
        }
    }
}
