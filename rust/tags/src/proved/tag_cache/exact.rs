// Made of crates/tag_cache/src/exact.rt, where the contracts are, by rust/generate.

//! Gets of one given tag.

use crate::proved::tag_cache::cache::Cache;
use crate::proved::tag_pool::{Found, Got, Pool, TagFault, Woken};

impl<R: Copy> Cache<R> {
    /// Takes this tag if it is free, and no other, and sees to what that left free, as `Pool::get_exactly` does. If this
    /// cache keeps the tag it is free, and is handed out by no step; one that another cache keeps is not. `NoSuchTag` means
    /// that the number is not below the total, `Spent` that the hand's life in the tag's set is used up.
    #[inline]
    pub fn get_exactly(&mut self, pool: &Pool<R>, tag: u32) -> Result<Got<Option<u32>>, TagFault> {
        if self.keeps(tag) {
            self.hand_out(tag);
            return Ok(Got {
                answer: Some(tag),
                woken: Woken::none(),
            });
        }
        pool.get_exactly(&mut self.hand, tag)
    }

    /// Like `get_exactly`, but tells nobody (see `get_quietly`). It is refused as `get_exactly` is: `NoSuchTag`, `Spent`.
    #[inline]
    pub fn get_exactly_quietly(&mut self, pool: &Pool<R>, tag: u32) -> Result<Found<u32>, TagFault> {
        if self.keeps(tag) {
            self.hand_out(tag);
            return Ok(Found {
                answer: Some(tag),
                left: 0,
            });
        }
        pool.get_exactly_quietly(&mut self.hand, tag)
    }
}
