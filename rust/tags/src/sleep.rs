//! How threads sleep and are woken: by the system, or by what a program without one brings.

use crate::base::word::AtomicU32;
use core::time::Duration;

#[cfg(feature = "std")]
mod system;
mod token;

pub(crate) use token::Token;

/// How the threads of a program sleep: for a kernel or a runtime, where there is no `std`. A pool is opened with it by
/// [`Pool::open_with_sleeper`](crate::Pool::open_with_sleeper); other pools use [`default_sleeper`].
///
/// A thread sleeps on a word, as by a futex: whoever wakes it has changed the word before. A queue of sleeping threads
/// for each of some words, by their addresses, is enough: a sleep may end for no reason.
///
/// ```
/// # use core::sync::atomic::{AtomicU32, Ordering::SeqCst};
/// # use core::time::Duration;
/// # use tags::{Options, Pool, Sleeper};
/// /// Lets other tasks of one processor run until the word has changed.
/// struct Yields;
///
/// impl Sleeper for Yields {
///     fn sleep(&self, word: &AtomicU32, expected: u32, end: Option<Duration>) {
///         while word.load(SeqCst) == expected && end.is_none_or(|it| self.now() < it) {
///             # std::thread::yield_now();
///             // schedule();
///         }
///     }
///
///     fn wake(&self, _: &AtomicU32) {}
///
///     fn now(&self) -> Duration {
///         # Duration::ZERO
///         // the time since the machine was started
///     }
/// }
///
/// # fn main() -> tags::Result<()> {
/// let pool = Pool::open_with_sleeper(&Options::new(16, 2), &Yields, |_| ())?;
/// let tag = pool.join()?.into_shared().get_blocking()?;
/// # drop(tag);
/// # Ok(())
/// # }
/// ```
pub trait Sleeper: Send + Sync {
    /// Sleeps while the word is `expected`, until [`wake`](Sleeper::wake) is called for it, and at most until `end`, by
    /// the clock of [`now`](Sleeper::now). It may return at any time. A call for a word that is not `expected` returns
    /// at once, also if the word changes meanwhile: no wake is lost between a look at the word and the sleep.
    ///
    /// A panic ends a wait for a tag or a hand, in a queue or of a drain, as a limit does, and goes on to the caller.
    /// In a sleep that others end in a moment, as behind a lock, it ends the program.
    fn sleep(&self, word: &AtomicU32, expected: u32, end: Option<Duration>);

    /// Wakes all threads that sleep on the word, which has changed. A panic ends the program, as some might sleep for
    /// ever.
    fn wake(&self, word: &AtomicU32);

    /// Returns the time by a clock that never goes back, from any beginning. If it returns [`Duration::MAX`] there is
    /// no clock, and a wait with a limit only tries.
    fn now(&self) -> Duration;

    /// Returns the number of the processor that this thread runs on, below [`processors`](Sleeper::processors) if it can
    /// be, for [`SharedHands`](crate::SharedHands): with another number, or the same for all, they are slower.
    fn processor(&self) -> usize {
        0
    }

    /// Returns how many processors run threads of the program, for [`Pool::share`](crate::Pool::share).
    fn processors(&self) -> usize {
        1
    }
}

/// Makes a call of the program's code that must not unwind, as others might then sleep for ever.
pub(crate) fn or_end<R>(why: &'static str, call: impl FnOnce() -> R) -> R {
    /// A panic while another one unwinds ends the program.
    struct Ends(&'static str);

    impl Drop for Ends {
        fn drop(&mut self) {
            panic!("{}", self.0);
        }
    }

    let ends = Ends(why);
    let answer = call();
    core::mem::forget(ends);
    answer
}

/// Wakes all threads that sleep on the word.
pub(crate) fn wake(sleeper: &dyn Sleeper, word: &AtomicU32) {
    or_end("a wake panicked", || sleeper.wake(word));
}

/// Returns how a pool's threads sleep if it was opened without a sleeper of the program's: by the system (a futex on
/// Linux, and otherwise locks of `std`), or if there is no `std`, not at all: they spin, without a clock.
#[must_use]
pub fn default_sleeper() -> &'static dyn Sleeper {
    #[cfg(feature = "std")]
    return &system::System;
    #[cfg(not(feature = "std"))]
    return &Spin;
}

/// Spins, and has no clock.
#[cfg(not(feature = "std"))]
struct Spin;

#[cfg(not(feature = "std"))]
impl Sleeper for Spin {
    fn sleep(&self, word: &AtomicU32, expected: u32, _: Option<Duration>) {
        use core::sync::atomic::Ordering::SeqCst;
        while word.load(SeqCst) == expected {
            core::hint::spin_loop();
        }
    }

    fn wake(&self, _: &AtomicU32) {}

    fn now(&self) -> Duration {
        Duration::MAX
    }
}
