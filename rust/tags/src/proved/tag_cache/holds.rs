// Made of crates/tag_cache/src/holds.rt, where the contracts are, by rust/generate.

//! Whether the user of a cache holds a tag.

use crate::proved::tag_cache::cache::Cache;
use crate::proved::tag_pool::{Kind, Pool, TagFault};

impl<R> Cache<R> {
    /// Returns whether the user holds the tag: the hand does, and it is not kept. This makes no step.
    #[inline]
    pub fn holds(&self, tag: u32) -> bool {
        self.hand.holds(tag) && !self.keeps(tag)
    }
}

impl<R: Copy> Cache<R> {
    /// Returns the set of a tag that the user holds. It is refused as `clear` is. This makes no step.
    #[inline(always)]
    pub(crate) fn find_held(&self, pool: &Pool<R>, tag: u32) -> Result<Kind, TagFault> {
        let kind = pool.find_held(&self.hand, tag)?;
        if self.keeps(tag) {
            return Err(TagFault::NotHeld);
        }
        Ok(kind)
    }

    /// Places the hand's hints as `Pool::place` does.
    #[inline]
    pub fn place(&mut self, pool: &Pool<R>) {
        pool.place(&mut self.hand);
    }
}
