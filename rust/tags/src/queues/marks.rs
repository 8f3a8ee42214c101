//! Which tags are in a queue.
//!
//! A submitted tag is posted, but for its queue alone. It is marked before it is posted, and until whoever popped it has taken it.
//! So a take finds the mark: mostly before it takes anything, and else afterwards, and then it posts the tag again. Whoever popped
//! the tag waits for that.

use crate::base::word::AtomicU32;
use crate::error::{Error, Result};
use crate::gate::Gate;
use crate::sleep::Sleeper;
use alloc::vec::Vec;
use core::sync::atomic::Ordering::SeqCst;

pub(crate) struct Marks {
    /// 1 for each tag that is in a queue. A pool without queues has none.
    marks: Vec<AtomicU32>,
    /// Opened when a take has posted a marked tag again.
    returns: Gate,
    sleeper: &'static dyn Sleeper,
}

impl Marks {
    /// For tags none of which is in a queue.
    pub fn new(tags: u32, sleeper: &'static dyn Sleeper) -> Result<Marks> {
        let mut marks = Vec::new();
        marks.try_reserve_exact(tags as usize).map_err(|_| Error::NoMemory)?;
        marks.extend((0..tags).map(|_| AtomicU32::new(0)));
        Ok(Marks {
            marks,
            returns: Gate::default(),
            sleeper,
        })
    }

    pub fn has(&self, tag: u32) -> bool {
        self.marks.get(tag as usize).is_some_and(|mark| mark.load(SeqCst) == 1)
    }

    /// Marks a tag, for its holder.
    pub fn set(&self, tag: u32) {
        self.marks[tag as usize].store(1, SeqCst);
    }

    /// Ends the mark of a tag, for its holder.
    pub fn clear(&self, tag: u32) {
        self.marks[tag as usize].store(0, SeqCst);
    }

    /// A marked tag was posted again.
    pub fn tell(&self) {
        self.returns.open(self.sleeper);
    }

    /// Takes a marked tag, in turns with takes that post it again.
    pub fn wait_for<R>(&self, take: impl Fn() -> Option<R>) -> R {
        self.returns.wait_a_moment(self.sleeper, take)
    }
}
