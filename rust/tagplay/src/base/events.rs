//! Sleep in groups.

use crate::base::park;
use crate::base::sleep::Wait;
use crate::base::word::Word;
use core::ops::Deref;
use core::sync::atomic::Ordering::SeqCst;

/// Counts notices. Who announces a sleep and then looks for what it waits for misses none.
pub struct EventCount {
    notices: Word,
    announced: Word,
}

/// An announced sleep.
pub struct Key<'a> {
    of: &'a EventCount,
    at: u64,
}

impl EventCount {
    /// Without a notice.
    pub const fn new() -> EventCount {
        EventCount {
            notices: Word::new(0),
            announced: Word::new(0),
        }
    }

    /// Announces a sleep, which a notice from now on ends.
    pub fn prepare_wait(&self) -> Key<'_> {
        self.announced.fetch_add(1, SeqCst);
        Key {
            of: self,
            at: self.notices.load(SeqCst),
        }
    }

    /// Ends one of the sleeps that were announced before, and may end more.
    pub fn notify_one(&self) {
        self.notices.fetch_add(1, SeqCst);
        if self.announced.load(SeqCst) > 0 {
            park::wake(&self.notices, u32::MAX);
        }
    }
}

impl Key<'_> {
    /// Sleeps until a notice that came after the announcement.
    pub fn wait<W: Wait>(self, _: &W) {
        while self.of.notices.load(SeqCst) == self.at {
            park::park(&self.of.notices, self.at as u32);
        }
    }
}

impl Drop for Key<'_> {
    fn drop(&mut self) {
        self.of.announced.fetch_sub(1, SeqCst);
    }
}

/// A value that shares no cache line.
#[repr(align(128))]
pub struct CachePadded<T>(T);

impl<T> CachePadded<T> {
    /// This value, with padding around it.
    pub const fn new(value: T) -> Self {
        CachePadded(value)
    }
}

impl<T> Deref for CachePadded<T> {
    type Target = T;

    fn deref(&self) -> &T {
        &self.0
    }
}
