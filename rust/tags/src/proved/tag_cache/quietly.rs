// Made of crates/tag_cache/src/quietly.rt, where the contracts are, by rust/generate.

//! Gets that tell nobody, and return how many ordinary tags they left free.

use crate::proved::tag_cache::cache::Cache;
use crate::proved::tag_pool::{Found, Pool, TagFault};

impl<R: Copy> Cache<R> {
    /// Like `get`, but tells nobody: `left` is the number of ordinary tags that its sweeps freed and it did not take, 0 for
    /// none and for a kept tag. Whatever it answers, the caller sees to so many (`see_to`, `wake`), or knows that nobody
    /// waits. It is refused as `get` is: `Spent`.
    #[inline(always)]
    pub fn get_quietly(&mut self, pool: &Pool<R>) -> Result<Found<u32>, TagFault> {
        if self.keeps_none() {
            return self.win_quietly(pool);
        }
        Ok(Found {
            answer: Some(self.get_kept(pool)),
            left: 0,
        })
    }

    /// Returns the least kept tag, where one is kept (`keeps_none`): what `get_quietly` does then. It leaves none free.
    #[inline(always)]
    pub fn get_kept(&mut self, _pool: &Pool<R>) -> u32 {
        self.reuse()
    }

    /// Has the hand get a tag. It is out of line, so that a get is short where a tag is kept.
    #[inline]
    fn win_quietly(&mut self, pool: &Pool<R>) -> Result<Found<u32>, TagFault> {
        let Found { answer, left } = pool.get_quietly(&mut self.hand)?;
        let Some(tag) = answer else {
            return Ok(Found { answer: None, left });
        };
        self.learn(tag);
        Ok(Found {
            answer: Some(tag),
            left,
        })
    }

    /// Like `get_reserved`, but tells nobody (see `get_quietly`): `left` counts reserved tags. It is refused as `get_reserved`
    /// is: `NoReserved`, `Spent`.
    #[inline]
    pub fn get_reserved_quietly(&mut self, pool: &Pool<R>) -> Result<Found<u32>, TagFault> {
        pool.get_reserved_quietly(&mut self.hand)
    }

    /// Like `get_shallow`, but tells nobody (see `get_quietly`). It is refused as `get_shallow` is: `TooShallow`, `Spent`.
    #[inline]
    pub fn get_shallow_quietly(&mut self, pool: &Pool<R>, depth: u32) -> Result<Found<u32>, TagFault> {
        pool.get_shallow_quietly(&mut self.hand, depth)
    }

    /// Like `get_batch`, but tells nobody (see `get_quietly`). It is refused as `get_batch` is: `BadCount`, `Spent`.
    #[inline]
    pub fn get_batch_quietly(&mut self, pool: &Pool<R>, n: u32) -> Result<Found<(u32, u64)>, TagFault> {
        pool.get_batch_quietly(&mut self.hand, n)
    }

    /// Like `get_many`, but tells nobody: after its answer it returns the sum of how many ordinary tags each of its gets left
    /// free, and of those that it gave back. The caller sees to so many (`see_to`, `wake`). It is refused as `get_many` is:
    /// `BadCount`, `Spent`.
    #[inline]
    pub fn get_many_quietly(&mut self, pool: &Pool<R>, tags: &mut [u32]) -> Result<(bool, u64), TagFault> {
        pool.get_many_quietly(&mut self.hand, tags)
    }
}
