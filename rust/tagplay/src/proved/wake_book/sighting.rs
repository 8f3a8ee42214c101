// Made of crates/wake_book/src/sighting.rt, where the contracts are, by rust/generate.

use crate::proved::wake_book::groups::{Groups, Waiter};
use core::marker::PhantomData;

/// What a waiter's steps were right after it sighted the active count, and what another value was at that moment.
pub struct Sighting<T> {
    /// The other value at the look.
    pub(crate) beside: PhantomData<fn() -> T>,
}

impl Groups {
    /// Loads the active count like `active`. The sighting keeps the waiter's steps right after this load, and what
    /// `beside` is at this moment.
    pub fn sight<T>(&self, waiter: &mut Waiter, _beside: &T) -> (u64, Sighting<T>) {
        let active = self.active(waiter);
        let sighting = Sighting { beside: PhantomData };
        (active, sighting)
    }
}

impl<T> Sighting<T> {
    /// Returns the sighting of a waiter that has made no step, and so has not looked yet.
    pub fn none(_waiter: &Waiter, _beside: &T) -> Sighting<T> {
        Sighting { beside: PhantomData }
    }
}
