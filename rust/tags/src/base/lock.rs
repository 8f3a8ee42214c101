//! A lock over a word on which threads sleep.

use crate::base::word::{touch, AtomicU32, LOOKS};
use crate::sleep::{or_end, wake, Sleeper};
use core::cell::UnsafeCell;
use core::hint::spin_loop;
use core::marker::PhantomData;
use core::mem::ManuallyDrop;
use core::ops::{Deref, DerefMut};
use core::ptr::NonNull;
use core::sync::atomic::Ordering::{Acquire, Relaxed, Release};

// The states of the word.
const FREE: u32 = 0;
const HELD: u32 = 1;
/// A thread may sleep, so whoever frees the lock wakes.
const AWAITED: u32 = 2;

/// A value that one thread at a time uses, for a short time.
pub struct Lock<T> {
    state: AtomicU32,
    sleeper: &'static dyn Sleeper,
    value: UnsafeCell<T>,
}

// SAFETY: the guard of the thread that took the lock is the only one, so the value goes from thread to thread.
unsafe impl<T: Send> Sync for Lock<T> {}

/// The right to use the value of a lock.
pub struct Guard<'a, T> {
    /// A pointer, as whoever has left the lock by `leave` has no right to it any more.
    lock: NonNull<Lock<T>>,
    /// It is sent to no other thread.
    own: PhantomData<(&'a Lock<T>, *mut T)>,
}

impl<T> Lock<T> {
    pub fn new(value: T, sleeper: &'static dyn Sleeper) -> Lock<T> {
        Lock {
            state: AtomicU32::new(FREE),
            sleeper,
            value: UnsafeCell::new(value),
        }
    }

    #[inline]
    pub fn lock(&self) -> Guard<'_, T> {
        if !self.takes(FREE, HELD) {
            self.wait();
        }
        self.guard()
    }

    /// Takes the lock if it is free.
    #[inline]
    pub fn try_lock(&self) -> Option<Guard<'_, T>> {
        self.takes(FREE, HELD).then(|| self.guard())
    }

    #[inline]
    fn guard(&self) -> Guard<'_, T> {
        Guard {
            lock: NonNull::from(self),
            own: PhantomData,
        }
    }

    #[inline]
    fn takes(&self, from: u32, to: u32) -> bool {
        self.state.compare_exchange(from, to, Acquire, Relaxed).is_ok()
    }

    /// Whoever has slept takes the lock as one that is awaited, as others may sleep still.
    #[cold]
    fn wait(&self) {
        for _ in 0..LOOKS {
            if self.takes(FREE, HELD) {
                return;
            }
            spin_loop();
        }
        while self.state.swap(AWAITED, Acquire) != FREE {
            let sleep = || self.sleeper.sleep(&self.state, AWAITED, None);
            or_end("a sleep panicked behind a lock", sleep);
        }
    }

    #[inline]
    fn free(&self) {
        if self.state.swap(FREE, Release) == AWAITED {
            self.wake();
        }
    }

    #[cold]
    fn wake(&self) {
        wake(self.sleeper, &self.state);
    }

    /// For its guard alone.
    #[inline]
    fn value(&self) -> *mut T {
        let value = self.value.get();
        touch(value);
        value
    }
}

impl<T> Guard<'_, T> {
    #[inline]
    fn lock(&self) -> &Lock<T> {
        // SAFETY: the lock is there as long as it is held.
        unsafe { self.lock.as_ref() }
    }

    /// Leaves a lock that others may end as soon as it is free. Where a thread may sleep, and so is woken after that,
    /// `keep` makes what keeps the lock meanwhile.
    #[inline]
    pub fn leave<K>(self, keep: impl FnOnce() -> K) {
        let guard = ManuallyDrop::new(self);
        if guard
            .lock()
            .state
            .compare_exchange(HELD, FREE, Release, Relaxed)
            .is_err()
        {
            let _kept = keep();
            guard.lock().free();
        }
    }
}

impl<T> Deref for Guard<'_, T> {
    type Target = T;

    #[inline]
    fn deref(&self) -> &T {
        // SAFETY: the lock is held as long as the guard lives, which lends the value no longer.
        unsafe { &*self.lock().value() }
    }
}

impl<T> DerefMut for Guard<'_, T> {
    #[inline]
    fn deref_mut(&mut self) -> &mut T {
        // SAFETY: as in `deref`, and nothing else borrows the guard.
        unsafe { &mut *self.lock().value() }
    }
}

impl<T> Drop for Guard<'_, T> {
    #[inline]
    fn drop(&mut self) {
        self.lock().free();
    }
}

#[cfg(all(test, feature = "std"))]
mod tests {
    use super::{Lock, AWAITED};
    use crate::sleep::default_sleeper;
    use core::sync::atomic::Ordering::Relaxed;
    use std::sync::Arc;
    use std::thread;

    #[test]
    fn a_lock_that_is_held_can_not_be_taken() {
        let lock = Lock::new(0, default_sleeper());
        let held = lock.try_lock();
        assert!(held.is_some() && lock.try_lock().is_none() && lock.try_lock().is_none());
        drop(held);
        assert!(lock.try_lock().is_some() && lock.try_lock().is_some());
    }

    #[test]
    fn who_leaves_wakes_one_that_sleeps_and_keeps_the_lock_meanwhile() {
        let lock = Arc::new(Lock::new(0, default_sleeper()));
        let (held, other) = (lock.lock(), Arc::clone(&lock));
        let waiter = thread::spawn(move || *other.lock() += 1);
        while lock.state.load(Relaxed) != AWAITED {
            thread::yield_now();
        }
        let mut kept = 0;
        held.leave(|| kept += 1);
        waiter.join().unwrap();
        lock.lock().leave(|| kept += 1);
        assert_eq!((*lock.lock(), kept), (1, 1));
    }

    #[test]
    fn one_thread_at_a_time() {
        let lock = Lock::new(0_u64, default_sleeper());
        thread::scope(|threads| {
            for _ in 0..8 {
                threads.spawn(|| {
                    for round in 0..20_000 {
                        let tried = if round % 3 == 0 { lock.try_lock() } else { None };
                        let mut value = tried.unwrap_or_else(|| lock.lock());
                        *value += 1;
                        if round % 1000 == 0 {
                            thread::yield_now();
                        }
                    }
                });
            }
        });
        assert_eq!(*lock.lock(), 160_000);
    }
}
