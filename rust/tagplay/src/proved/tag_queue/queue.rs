// Made of crates/tag_queue/src/queue.rt, where the contracts are, by rust/generate.

//! The queue.

use crate::proved::tag_pool::Pool;
use crate::proved::tag_queue::room::Room;
use crate::proved::wake_book::{Book, Groups};

/// A pool, with a count of completions and groups of waiters.
pub struct Queue<R> {
    pub(crate) pool: Pool<R>,
    pub(crate) book: Book,
    pub(crate) groups: Groups,
    /// Completions per charge, 1 to 8.
    pub(crate) batch: u32,
    /// The minimum shallow depth as the options gave it. A resize computes the new batch from it.
    pub(crate) min_shallow: Option<u32>,
    /// Room for the hands of the pool, for calls that take the queue's hands apart.
    pub(crate) room: Room<R>,
}

impl<R> Queue<R> {
    /// Returns the pool of the queue's tags. Its hands are those of the queue.
    #[inline]
    pub fn pool(&self) -> &Pool<R> {
        &self.pool
    }
}
