// Made of crates/tag_cache/src/known.rt, where the contracts are, by rust/generate.

//! The slots of tags that the user is known to hold, which need no test.

use crate::proved::tag_cache::cache::Cache;
use crate::proved::tag_pool::Pool;

impl<R: Copy> Cache<R> {
    /// Returns the value in the slot of a tag that the user is known to hold.
    #[inline(always)]
    pub(crate) fn read_known(&mut self, pool: &Pool<R>, tag: u32) -> R {
        pool.read_held(&mut self.hand, tag)
    }

    /// Writes the slot of a tag that the user is known to hold, and returns its former value.
    #[inline(always)]
    pub(crate) fn write_known(&mut self, pool: &Pool<R>, tag: u32, value: R) -> R {
        pool.write_ordinary_held(&mut self.hand, tag, value)
    }
}
