// Made of crates/tag_cache/src/looks.rt, where the contracts are, by rust/generate.

//! Reports on the tags. A kept tag is busy: to the pool it is held.

use crate::proved::tag_cache::cache::Cache;
use crate::proved::tag_pool::{Kind, Pool, Shown};

impl<R: Copy> Cache<R> {
    /// Lists the busy tags, as `Pool::busy` does. The tags that this cache keeps are among them, and so are those that
    /// other caches keep, if they are found taken.
    #[inline]
    pub fn busy(&mut self, pool: &Pool<R>, into: &mut [u64]) -> u32 {
        pool.busy(&mut self.hand, into)
    }

    /// Returns the sizes of a set, and how many of its tags are busy, kept ones among them, and how many set aside, as
    /// `Pool::show` does.
    #[inline]
    pub fn show(&mut self, pool: &Pool<R>, kind: Kind) -> Shown {
        pool.show(&mut self.hand, kind)
    }

    /// Packs the busy tags of a set, kept ones among them, into the first bytes of `into`, as `Pool::dump` does.
    #[inline]
    pub fn dump(&mut self, pool: &Pool<R>, kind: Kind, into: &mut [u8]) -> u32 {
        pool.dump(&mut self.hand, kind, into)
    }
}
