// Made of crates/tag_cache/src/meets.rt, where the contracts are, by rust/generate.

use crate::proved::tag_cache::cache::Cache;
use crate::proved::tag_pool::{Hand, Pool};

impl<R: Copy> Cache<R> {
    /// Establishes that two caches have no tag in common, neither held by their users nor kept. It changes nothing.
    #[inline]
    pub fn meet(&mut self, other: &mut Cache<R>, pool: &Pool<R>) {
        pool.meet(&mut self.hand, &mut other.hand);
    }

    /// Establishes that a cache and a hand have no tag in common, neither held by the user of the cache nor kept. It
    /// changes nothing.
    #[inline]
    pub fn meet_hand(&mut self, hand: &mut Hand<R>, pool: &Pool<R>) {
        pool.meet(&mut self.hand, hand);
    }

    /// Establishes that another cache does not have a tag that this one has: its user does not hold it, and it is not
    /// kept. This makes no step.
    #[inline]
    pub fn apart(&mut self, other: &mut Cache<R>, pool: &Pool<R>, tag: u32) {
        pool.apart(&mut self.hand, &mut other.hand, tag);
    }
}
