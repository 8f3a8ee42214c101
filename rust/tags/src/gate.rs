//! Waits for a hand, and for all tags to be back: for the start and the end of a program, and for a resize. Whoever
//! waits looks again whenever something came back; there are no turns.
//!
//! Who waits counts itself, then looks. Who gives something back does so, and then loads the count. All four are
//! sequentially consistent, so either the look finds what came back, or the load finds the one that waits; then the
//! gate's number changes, which ends its sleep or lets none begin.

use crate::base::word::{AtomicU32, LOOKS};
use crate::sleep::{or_end, wake, Sleeper};
use core::hint::spin_loop;
use core::sync::atomic::Ordering::SeqCst;
use core::time::Duration;

/// Where threads wait for something that may come back.
#[derive(Default)]
pub(crate) struct Gate {
    number: AtomicU32,
    sleepers: AtomicU32,
}

/// Counts one that waits as long as it lives.
pub(crate) struct Counted<'a>(&'a AtomicU32);

impl<'a> Counted<'a> {
    pub fn new(count: &'a AtomicU32) -> Counted<'a> {
        count.fetch_add(1, SeqCst);
        Counted(count)
    }
}

impl Drop for Counted<'_> {
    fn drop(&mut self) {
        self.0.fetch_sub(1, SeqCst);
    }
}

impl Gate {
    /// Something came back: who waits looks again.
    pub fn open(&self, sleeper: &dyn Sleeper) {
        if self.sleepers.load(SeqCst) > 0 {
            self.number.fetch_add(1, SeqCst);
            wake(sleeper, &self.number);
        }
    }

    /// Looks again and again, and once more after the end. `None` means that the time is up.
    pub fn wait<R>(&self, sleeper: &dyn Sleeper, end: Option<Duration>, look: impl Fn() -> Option<R>) -> Option<R> {
        let _counted = Counted::new(&self.sleepers);
        let mut is_late = false;
        loop {
            let number = self.number.load(SeqCst);
            let found = look();
            if found.is_some() || is_late {
                return found;
            }
            is_late = is_past(sleeper, end);
            if !is_late {
                sleeper.sleep(&self.number, number, end);
            }
        }
    }

    /// The same without an end, for what mostly takes a moment: it sleeps only after some looks.
    pub fn wait_a_moment<R>(&self, sleeper: &dyn Sleeper, look: impl Fn() -> Option<R>) -> R {
        for _ in 0..LOOKS {
            if let Some(found) = look() {
                return found;
            }
            spin_loop();
        }
        or_end("a sleep panicked amid a call", || loop {
            if let Some(found) = self.wait(sleeper, None, &look) {
                return found;
            }
        })
    }
}

/// Whether the end has come.
pub(crate) fn is_past(sleeper: &dyn Sleeper, end: Option<Duration>) -> bool {
    end.is_some_and(|end| sleeper.now() >= end)
}

/// The moment this long from now. `None` means never.
pub(crate) fn deadline(sleeper: &dyn Sleeper, time: Duration) -> Option<Duration> {
    let now = sleeper.now();
    if now == Duration::MAX {
        // There is no clock: the end has come.
        return Some(now);
    }
    now.checked_add(time)
}
