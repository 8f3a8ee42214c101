//! Sleep by the system, of which a test sees how many threads are in it.
use std::sync::atomic::{AtomicU32, AtomicUsize, Ordering::SeqCst};
use std::thread;
use std::time::Duration;
use tags::{default_sleeper, Sleeper};

/// A test has one of its own, by which its pool is opened.
pub struct Asleep {
    count: AtomicUsize,
}

impl Asleep {
    pub const fn new() -> Asleep {
        Asleep {
            count: AtomicUsize::new(0),
        }
    }

    /// Waits until so many threads are asleep, or about to be: they have looked, and found that they have to.
    pub fn wait_for(&self, count: usize) {
        while self.count.load(SeqCst) < count {
            thread::yield_now();
        }
    }
}

impl Sleeper for Asleep {
    fn sleep(&self, word: &AtomicU32, expected: u32, end: Option<Duration>) {
        self.count.fetch_add(1, SeqCst);
        default_sleeper().sleep(word, expected, end);
        self.count.fetch_sub(1, SeqCst);
    }

    fn wake(&self, word: &AtomicU32) {
        default_sleeper().wake(word);
    }

    fn now(&self) -> Duration {
        default_sleeper().now()
    }
}
