// Made of crates/wake_book/src/sleeping.rt, where the contracts are, by rust/generate.

//! Sleeps, which a waiter announces first, and which end at a grant or at a ring.

use crate::base::events::Key as Sleep;
use crate::base::sleep::Wait;
use crate::proved::wake_book::groups::{Groups, Waiter, WAITING};
use core::marker::PhantomData;

/// What a waiter's steps were when it announced a sleep, and what another value was at that moment.
pub struct Announcement<T> {
    /// The other value at that moment.
    pub(crate) beside: PhantomData<fn() -> T>,
}

/// An announced sleep in a group. To drop it cancels the sleep.
pub struct Key<'a, T> {
    /// The announcement to the group's event count.
    pub(crate) wait: Sleep<'a>,
    /// The group, 0 to 7.
    pub(crate) group: u32,
    /// When the sleep was announced.
    pub(crate) announcement: Announcement<T>,
}

impl Groups {
    /// Announces a sleep in the waiter's group, so that a ring from now on ends it. Whoever announces first and then
    /// looks for what it waits for misses no ring. The key keeps the waiter's steps and what `beside` is at this moment.
    /// This makes no step.
    pub fn announce<T>(&self, waiter: &Waiter, _beside: &T) -> Key<'_, T> {
        let Some(group) = Groups::standing(waiter) else {
            unreachable!()
        };
        Key {
            wait: self.bells[group as usize].prepare_wait(),
            group,
            announcement: Announcement { beside: PhantomData },
        }
    }

    /// Looks at the waiter's group once, and if it finds no grant there, sleeps until a ring that came after
    /// `announce`. So it returns because of a grant or of a ring: a waiter that finds no grant when it leaves was only
    /// rung. Another waiter of the group may use the grant first. It returns when the sleep was announced.
    pub fn sleep<R: Wait, T>(&self, rt: &R, waiter: &mut Waiter, key: Key<'_, T>) -> Announcement<T> {
        let Key {
            wait,
            group,
            announcement,
        } = key;
        if self.look_group(waiter, group) % WAITING > 0 {
            return announcement;
        }
        wait.wait(rt);
        announcement
    }
}

impl<T> Announcement<T> {
    /// Returns the announcement of a waiter that has made no step, and so has announced nothing yet.
    pub fn none(_waiter: &Waiter, _beside: &T) -> Announcement<T> {
        Announcement { beside: PhantomData }
    }
}
