// Made of crates/tag_queue/src/waits.rt, where the contracts are, by rust/generate.

//! Enters and leaves wait groups, and loads what they count.

use crate::base::sleep::Wait;
use crate::proved::tag_queue::fault::WaitFault;
use crate::proved::tag_queue::hand::QueueHand;
use crate::proved::tag_queue::queue::Queue;
use crate::proved::wake_book::{Groups, Left};

/// The counts of a queue and the state of its wait groups, as one hand loaded them.
#[derive(Clone, Copy, Debug, PartialEq, Eq)]
pub struct Wakes {
    /// Completions counted.
    pub counted: u64,
    /// Completions charged. They are loaded before `counted`, so they are at most as many.
    pub charged: u64,
    /// The wake index: the group that the next walk visits first, 0 to 7.
    pub index: u32,
    /// Number of active hands: those that are in a wait group, or entering or leaving one.
    pub active: u64,
}

impl<R: Copy> Queue<R> {
    /// Enters the wait group of the hand's wait index, advances that index, and returns the group, 0 to 7. `Waiting`
    /// means that the hand is already in one.
    pub fn prepare_wait(&self, hand: &mut QueueHand<R>) -> Result<u32, WaitFault> {
        if Groups::standing(&hand.waiter).is_some() {
            return Err(WaitFault::Waiting);
        }
        Ok(self.groups.enter(&mut hand.waiter))
    }

    /// Leaves the hand's wait group, and returns `Woken` if it used a grant there, `Unwoken` if it found none.
    /// `NotWaiting` means that the hand is in no group.
    pub fn finish_wait<W: Wait>(&self, rt: &W, hand: &mut QueueHand<R>) -> Result<Left, WaitFault> {
        if Groups::standing(&hand.waiter).is_none() {
            return Err(WaitFault::NotWaiting);
        }
        Ok(self.groups.leave(rt, &mut hand.waiter))
    }

    /// Like `finish_wait`, but makes one try only, and so needs no `rt`. `None` means that the group's word changed
    /// meanwhile and that the hand is still in the group.
    pub fn try_finish_wait(&self, hand: &mut QueueHand<R>) -> Result<Option<Left>, WaitFault> {
        if Groups::standing(&hand.waiter).is_none() {
            return Err(WaitFault::NotWaiting);
        }
        Ok(self.groups.try_leave(&mut hand.waiter))
    }

    /// Loads the counts and the state of the wait groups, in four loads at different moments.
    pub fn wakes(&self, hand: &mut QueueHand<R>) -> Wakes {
        let (counted, charged) = self.book.counts(&mut hand.teller);
        let index = self.groups.index(&mut hand.waiter);
        let active = self.groups.active(&mut hand.waiter);
        Wakes {
            counted,
            charged,
            index,
            active,
        }
    }

    /// Loads the number of active waiters, as each clear does. 0 means that the load found nobody waiting.
    #[inline]
    pub fn active(&self, hand: &mut QueueHand<R>) -> u64 {
        self.groups.active(&mut hand.waiter)
    }

    /// Loads the counts and the state of the wait groups without a hand, in four loads at different moments.
    pub fn peek_wakes(&self) -> Wakes {
        let (counted, charged) = self.book.peek_counts();
        Wakes {
            counted,
            charged,
            index: self.groups.peek_index(),
            active: self.groups.peek_active(),
        }
    }
}
