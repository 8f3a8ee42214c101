//! Who waits for tags of one set: where its threads sleep, and its futures.

use crate::allocator::Hands;
use crate::bell::{ones, Bell};
use crate::queue::Queue;
use crate::sleep::{Sleeper, Token};
use alloc::vec::Vec;
use core::time::Duration;

/// The side of a bell for one set.
pub(crate) struct Side {
    /// Those of the hands, by their numbers.
    places: Vec<Place>,
}

/// Where the thread of a hand sleeps for a tag of the set, and the futures that wait behind it for one.
struct Place {
    token: Token,
    queue: Queue,
}

impl Side {
    /// A side for this many hands, or `None` without memory.
    pub fn new(hands: u32, sleeper: &'static dyn Sleeper) -> Option<Side> {
        let mut places = Vec::new();
        places.try_reserve_exact(hands as usize).ok()?;
        places.extend((0..hands).map(|_| Place {
            token: Token::new(),
            queue: Queue::new(sleeper),
        }));
        Some(Side { places })
    }

    /// The futures that wait behind a hand, if anybody can wait for a tag of the set.
    pub fn queue(&self, hand: usize) -> Option<&Queue> {
        self.places.get(hand).map(|place| &place.queue)
    }

    /// Wakes those who were told. It calls wakers.
    pub fn wake(&self, told: Hands, sleeper: &dyn Sleeper) {
        ones(told.sleepers).for_each(|hand| self.rouse(hand, sleeper));
        ones(told.listeners).for_each(|hand| self.places[hand].queue.tell());
    }

    /// Ends the sleep of a hand's thread, or lets none begin.
    fn rouse(&self, hand: usize, sleeper: &dyn Sleeper) {
        self.places[hand].token.give(sleeper);
    }

    /// Sleeps until the hand was woken, at most until the end.
    pub fn sleep(&self, hand: usize, sleeper: &dyn Sleeper, end: Option<Duration>) {
        self.places[hand].token.sleep(sleeper, end);
    }

    /// Ends all sleeps, and answers all futures.
    pub fn stop(&self, bell: &Bell) {
        for (hand, place) in self.places.iter().enumerate() {
            self.rouse(hand, bell.sleeper);
            place.queue.stop(bell);
        }
    }
}
