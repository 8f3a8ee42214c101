//! Sleep by the standard library's parking of threads, with one list of all who sleep.

use crate::base::word::Word;
use alloc::vec::Vec;
use core::sync::atomic::Ordering::SeqCst;
use std::sync::{Mutex, MutexGuard, PoisonError};
use std::thread::Thread;

/// A thread that sleeps.
struct Sleeper {
    /// The address of the word.
    word: usize,
    /// No other sleep has this number.
    number: u64,
    thread: Thread,
}

struct Sleepers {
    count: u64,
    all: Vec<Sleeper>,
}

static SLEEPERS: Mutex<Sleepers> = Mutex::new(Sleepers {
    count: 0,
    all: Vec::new(),
});

/// Nothing panics while it holds the lock.
fn sleepers() -> MutexGuard<'static, Sleepers> {
    SLEEPERS.lock().unwrap_or_else(PoisonError::into_inner)
}

/// Sleeps while the low half of the word is `expected`. It may return for no reason, and does if memory runs out.
pub fn park(word: &Word, expected: u32) {
    let thread = std::thread::current();
    let mut sleepers = sleepers();
    // Whoever changes the word and then wakes takes the lock after this, and so finds the sleeper.
    if word.load(SeqCst) as u32 != expected || sleepers.all.try_reserve(1).is_err() {
        drop(sleepers);
        return std::thread::yield_now();
    }
    sleepers.count += 1;
    let number = sleepers.count;
    let word = word.as_ptr() as usize;
    sleepers.all.push(Sleeper { word, number, thread });
    drop(sleepers);
    while self::sleepers().all.iter().any(|it| it.number == number) {
        std::thread::park();
    }
}

/// Wakes up to `count` of those who sleep on the word, the first of them first.
pub fn wake(word: &Word, count: u32) {
    let word = word.as_ptr() as usize;
    let mut sleepers = sleepers();
    for _ in 0..count {
        let Some(first) = sleepers.all.iter().position(|it| it.word == word) else {
            return;
        };
        sleepers.all.remove(first).thread.unpark();
    }
}
