//! Sleep by the system.

use crate::sleep::Sleeper;
use core::num::NonZero;
use core::sync::atomic::AtomicU32;
use core::time::Duration;
use std::sync::OnceLock;
use std::time::Instant;

/// The system's sleep, and its monotonic clock.
pub(crate) struct System;

impl Sleeper for System {
    fn sleep(&self, word: &AtomicU32, expected: u32, end: Option<Duration>) {
        let time = end.map(|end| end.saturating_sub(self.now()));
        way::sleep(word, expected, time);
    }

    fn wake(&self, word: &AtomicU32) {
        way::wake(word);
    }

    fn now(&self) -> Duration {
        static BEGIN: OnceLock<Instant> = OnceLock::new();
        BEGIN.get_or_init(Instant::now).elapsed()
    }

    #[inline]
    fn processor(&self) -> usize {
        processor()
    }

    fn processors(&self) -> usize {
        std::thread::available_parallelism().map_or(1, NonZero::get)
    }
}

/// The number of the processor that this thread runs on.
#[cfg(all(target_os = "linux", not(tags_park_threads)))]
fn processor() -> usize {
    unsafe extern "C" {
        safe fn sched_getcpu() -> core::ffi::c_int;
    }
    // -1 if the system can't tell.
    sched_getcpu().try_into().unwrap_or(0)
}

/// A number of the thread's own, in the order in which threads ask first.
#[cfg(not(all(target_os = "linux", not(tags_park_threads))))]
fn processor() -> usize {
    use core::sync::atomic::{AtomicUsize, Ordering::Relaxed};
    static NEXT: AtomicUsize = AtomicUsize::new(0);
    std::thread_local! {
        static OWN: usize = NEXT.fetch_add(1, Relaxed);
    }
    OWN.try_with(|own| *own).unwrap_or(0)
}

// With `--cfg tags_park_threads` a program does under Linux what it does elsewhere.
#[cfg(all(
    target_os = "linux",
    any(target_arch = "x86_64", target_arch = "aarch64"),
    not(tags_park_threads)
))]
use crate::base::futex as way;

#[cfg(not(all(
    target_os = "linux",
    any(target_arch = "x86_64", target_arch = "aarch64"),
    not(tags_park_threads)
)))]
use parking as way;

/// Sleep by locks of `std`, which words share by their addresses: so a wake may end the sleep of others.
#[cfg_attr(
    all(
        target_os = "linux",
        any(target_arch = "x86_64", target_arch = "aarch64"),
        not(tags_park_threads)
    ),
    allow(dead_code, reason = "tests check it here")
)]
mod parking {
    use core::sync::atomic::{AtomicU32, Ordering::SeqCst};
    use core::time::Duration;
    use std::sync::{Condvar, Mutex, PoisonError};

    struct Place {
        lock: Mutex<()>,
        changed: Condvar,
    }

    static PLACES: [Place; 64] = [const {
        Place {
            lock: Mutex::new(()),
            changed: Condvar::new(),
        }
    }; 64];

    fn place(word: &AtomicU32) -> &'static Place {
        let address = word.as_ptr() as usize;
        &PLACES[((address / 64) ^ (address / 4096)) % PLACES.len()]
    }

    /// Whoever wakes has changed the word before it takes the lock, so with the lock the word is the latest.
    pub fn sleep(word: &AtomicU32, expected: u32, time: Option<Duration>) {
        let place = place(word);
        let lock = place.lock.lock().unwrap_or_else(PoisonError::into_inner);
        if word.load(SeqCst) != expected {
            return;
        }
        match time {
            None => drop(place.changed.wait(lock)),
            Some(time) => drop(place.changed.wait_timeout(lock, time)),
        }
    }

    pub fn wake(word: &AtomicU32) {
        let place = place(word);
        drop(place.lock.lock());
        place.changed.notify_all();
    }
}

#[cfg(test)]
mod tests {
    use super::{parking, System};
    use crate::sleep::Sleeper;
    use core::sync::atomic::{AtomicU32, Ordering::SeqCst};
    use core::time::Duration;
    use std::thread;

    /// Sleeps by a way of sleeping, until the word is 1.
    fn wait_for_one(word: &AtomicU32, sleep: impl Fn(&AtomicU32)) {
        while word.load(SeqCst) == 0 {
            sleep(word);
        }
    }

    fn check(sleep: impl Fn(&AtomicU32) + Sync, wake: impl Fn(&AtomicU32)) {
        for _ in 0..1000 {
            let word = AtomicU32::new(0);
            thread::scope(|threads| {
                (0..3).for_each(|_| drop(threads.spawn(|| wait_for_one(&word, &sleep))));
                word.store(1, SeqCst);
                wake(&word);
            });
        }
    }

    #[test]
    fn a_wake_ends_every_sleep() {
        check(|word| System.sleep(word, 0, None), |word| System.wake(word));
        check(|word| parking::sleep(word, 0, None), parking::wake);
    }

    #[test]
    fn a_sleep_ends_in_time() {
        let (word, short) = (AtomicU32::new(0), Duration::from_millis(3));
        let end = System.now() + short;
        while System.now() < end {
            System.sleep(&word, 0, Some(end));
        }
        parking::sleep(&word, 0, Some(short));
        parking::sleep(&word, 1, None);
        System.sleep(&word, 1, None);
    }
}
