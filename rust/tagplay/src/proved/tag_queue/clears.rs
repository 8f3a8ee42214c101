// Made of crates/tag_queue/src/clears.rt, where the contracts are, by rust/generate.

//! Clears: tags are given back to the pool, counted, and waiters granted a wakeup.

use crate::proved::tag_pool::{Kind, TagFault};
use crate::proved::tag_queue::hand::QueueHand;
use crate::proved::tag_queue::queue::Queue;
use crate::proved::wake_book::{Charge, Grants, Waking, NO_GRANTS};

mod masks;

impl<R: Copy> Queue<R> {
    /// Clears a held tag, counts an ordinary one if any hand waits in a group, and answers as `W` says whom this granted a
    /// wakeup, nobody for a reserved tag. It is refused as the pool refuses: `NoSuchTag`, `NotHeld`; nothing changes then.
    #[inline]
    pub fn clear<W: Waking>(&self, hand: &mut QueueHand<R>, tag: u32) -> Result<W::Answer, TagFault> {
        match self.pool.clear_quietly(&mut hand.inner, tag)? {
            Kind::Reserved => Ok(W::nobody()),
            Kind::Ordinary => Ok(self.complete::<W>(hand, 1)),
        }
    }

    /// Clears a tag that the hand holds, like `clear` but for the checks.
    #[inline]
    pub fn clear_held<W: Waking>(&self, hand: &mut QueueHand<R>, tag: u32) -> W::Answer {
        self.pool.clear_held_quietly(&mut hand.inner, tag);
        match self.pool.kind(tag) {
            Kind::Reserved => W::nobody(),
            Kind::Ordinary => self.complete::<W>(hand, 1),
        }
    }

    /// Clears 1 to 64 held ordinary tags, counts them if any hand waits in a group, and answers as `W` says whom this
    /// granted a wakeup. `BadCount` means no tag, or more than 64; `NoSuchTag` that a number is no ordinary tag's;
    /// `NotHeld` that a tag is not held or named twice. Nothing changes on an error.
    pub fn clear_batch<W: Waking>(&self, hand: &mut QueueHand<R>, tags: &[u32]) -> Result<W::Answer, TagFault> {
        self.pool.clear_batch_quietly(&mut hand.inner, tags)?;
        Ok(self.complete::<W>(hand, tags.len() as u32))
    }

    /// Counts `n` ordinary tags given back if anybody is active, and grants up to a batch of wakeups if it charged one.
    #[inline]
    pub(crate) fn complete<W: Waking>(&self, hand: &mut QueueHand<R>, n: u32) -> W::Answer {
        let (found, sighting) = self.groups.sight(&mut hand.waiter, &hand.inner);
        hand.sighting = sighting;
        if found == 0 {
            return W::nobody();
        }
        self.charge_and_tell::<W>(hand, n)
    }

    /// Counts tags that came back, and grants up to a batch of wakeups if it charged one. It is out of line, so that a
    /// clear is short, and needs no memory, where nobody waits.
    #[inline(never)]
    fn charge_and_tell<W: Waking>(&self, hand: &mut QueueHand<R>, n: u32) -> W::Answer {
        let grants = self.charge(hand, n);
        self.tell::<W>(hand, grants)
    }

    /// Counts tags that came back, and grants up to a batch of wakeups if it charged one.
    #[inline(never)]
    fn charge(&self, hand: &mut QueueHand<R>, n: u32) -> Grants {
        match self.book.count(&mut hand.teller, n) {
            Charge::Won(_) => self.groups.walk(&mut hand.waiter, self.batch),
            _ => NO_GRANTS,
        }
    }

    /// Passes grants on as `W` does, and answers as it says. The grants of a call are passed to it once. This makes no
    /// step.
    #[inline]
    pub fn tell<W: Waking>(&self, hand: &mut QueueHand<R>, grants: Grants) -> W::Answer {
        W::tell(&self.groups, &mut hand.waiter, grants)
    }
}
