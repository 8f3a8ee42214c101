// Made of crates/tag_cache/src/before.rt, where the contracts are, by rust/generate.

//! What becomes of the kept tags before others that are cleared together.

use crate::proved::tag_cache::cache::Cache;
use crate::proved::tag_cache::keeping::Keeping;
use crate::proved::tag_pool::Pool;

impl<R> Cache<R> {
    /// Returns whether the kept tags may stay once the user is known to hold only the tags of this mask of the window. If so
    /// it says that it is.
    #[inline]
    pub(crate) fn goes_on(&mut self, left: u64) -> bool {
        if self.leaves_none(left) {
            return false;
        }
        self.known = left;
        true
    }

    /// Returns whether nothing may be kept any more once the user is known to hold only the tags of this mask.
    #[inline]
    fn leaves_none(&self, left: u64) -> bool {
        match self.keeping {
            Keeping::Always => false,
            Keeping::WhileHolding => left == 0,
        }
    }
}

impl<R: Copy> Cache<R> {
    /// Gives all kept tags back, and says that the user is known to hold only the tags of this mask. Returns how many went
    /// back.
    #[inline]
    pub(crate) fn leave(&mut self, pool: &Pool<R>, left: u64) -> u32 {
        let freed = self.give_back_kept(pool);
        self.known = left;
        freed
    }
}
