// Made of crates/tag_queue/src/gets/blocking.rt, where the contracts are, by rust/generate.

//! Blocking gets: a hand that finds no tag stays in a wait group until it is woken, and searches again.

use crate::base::sleep::Wait;
use crate::proved::tag_pool::{Hand, Kind};
use crate::proved::tag_queue::fault::WaitFault;
use crate::proved::tag_queue::hand::QueueHand;
use crate::proved::tag_queue::queue::Queue;
use crate::proved::wake_book::{Groups, Key, Left, Waiter};

impl<R: Copy> Queue<R> {
    /// Takes a free ordinary tag like `get`, and waits as long as it finds none: it enters a wait group, searches once more, and
    /// sleeps there if it finds none again, until it is granted a wakeup or rung. Nothing promises that it returns.
    /// `NoSuchTag` means that there is no ordinary tag, `Waiting` that the hand is already in a wait group, `Spent` that its
    /// life in the ordinary set is used up.
    pub fn get_blocking<W: Wait>(&self, rt: &W, hand: &mut QueueHand<R>) -> Result<u32, WaitFault> {
        if self.pool.layout(Kind::Ordinary).depth() == 0 {
            return Err(WaitFault::NoSuchTag);
        }
        if Groups::standing(&hand.waiter).is_some() {
            return Err(WaitFault::Waiting);
        }
        for _ in rt.forever() {
            // Only the first get can be refused: each later one follows a get that won nothing.
            let Ok(answer) = self.get(hand) else {
                return Err(WaitFault::Spent);
            };
            if let Some(tag) = answer {
                return Ok(tag);
            }
            if let Some(tag) = self.stay(rt, hand) {
                return Ok(tag);
            }
        }
        unreachable!()
    }

    /// Stays in a wait group for one search, and sleeps there if it finds no tag.
    fn stay<W: Wait>(&self, rt: &W, hand: &mut QueueHand<R>) -> Option<u32> {
        self.groups.enter(&mut hand.waiter);
        // Whoever frees a tag after this search has passed it rings, and a ring after this line ends the sleep.
        let key = self.groups.announce(&hand.waiter, &hand.inner);
        // A tag given back before the hand entered wakes nobody, so it must be searched for once more.
        let answer = self.try_get(hand);
        self.sleep_if_none(rt, hand, key, answer);
        let left = self.groups.leave(rt, &mut hand.waiter);
        self.pass_on(&mut hand.waiter, answer, left);
        answer
    }

    /// Sleeps in the hand's group, as the key announced, if the search there found no tag.
    fn sleep_if_none<W: Wait>(&self, rt: &W, hand: &mut QueueHand<R>, key: Key<'_, Hand<R>>, answer: Option<u32>) {
        if answer.is_none() {
            hand.announcement = self.groups.sleep(rt, &mut hand.waiter, key);
        }
    }

    /// Rings one sleeper of each group if the waiter has a tag and used a grant: another could have used that grant, and
    /// would have looked for a tag that this one does not need.
    fn pass_on(&self, waiter: &mut Waiter, answer: Option<u32>, left: Left) {
        if answer.is_some() && left == Left::Woken {
            self.groups.nudge(waiter, 1);
        }
    }

    /// Makes a get for a hand that may win one more tag.
    fn try_get(&self, hand: &mut QueueHand<R>) -> Option<u32> {
        let Ok(answer) = self.get(hand) else { unreachable!() };
        answer
    }
}
