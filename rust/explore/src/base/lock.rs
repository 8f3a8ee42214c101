//! A lock that is taken in one step, and freed in none.

use crate::sleep::Sleeper;
use crate::steps;
use std::cell::UnsafeCell;
use std::ops::{Deref, DerefMut};

pub struct Lock<T> {
    value: UnsafeCell<T>,
}

// SAFETY: all threads that are explored are coroutines of one.
unsafe impl<T: Send> Sync for Lock<T> {}

pub struct Guard<'a, T> {
    lock: &'a Lock<T>,
}

impl<T> Lock<T> {
    pub fn new(value: T, _: &'static dyn Sleeper) -> Lock<T> {
        let value = UnsafeCell::new(value);
        Lock { value }
    }

    fn place(&self) -> usize {
        std::ptr::from_ref(self) as usize
    }

    pub fn try_lock(&self) -> Option<Guard<'_, T>> {
        steps::try_take(self.place()).then(|| Guard { lock: self })
    }

    pub fn lock(&self) -> Guard<'_, T> {
        steps::take(self.place());
        Guard { lock: self }
    }
}

impl<T> Guard<'_, T> {
    pub fn leave<K>(self, _: impl FnOnce() -> K) {
        drop(self);
    }
}

impl<T> Deref for Guard<'_, T> {
    type Target = T;

    fn deref(&self) -> &T {
        // SAFETY: the lock is held as long as the guard lives.
        unsafe { &*self.lock.value.get() }
    }
}

impl<T> DerefMut for Guard<'_, T> {
    fn deref_mut(&mut self) -> &mut T {
        // SAFETY: as in `deref`, and nothing else borrows the guard.
        unsafe { &mut *self.lock.value.get() }
    }
}

impl<T> Drop for Guard<'_, T> {
    fn drop(&mut self) {
        steps::free(self.lock.place());
    }
}
