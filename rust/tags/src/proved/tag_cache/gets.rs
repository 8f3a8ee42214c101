// Made of crates/tag_cache/src/gets.rt, where the contracts are, by rust/generate.

//! Gets: the calls that take tags, and then see to those that their sweeps freed and they did not take.

use crate::proved::tag_cache::cache::Cache;
use crate::proved::tag_pool::{Got, Pool, TagFault, Woken};

impl<R: Copy> Cache<R> {
    /// Returns the least kept tag, by no step. If no tag is kept it takes a free ordinary tag as `Pool::get` does, and
    /// sees to what it left free as that does. `Spent` means that the hand's life is used up.
    #[inline(always)]
    pub fn get(&mut self, pool: &Pool<R>) -> Result<Got<Option<u32>>, TagFault> {
        if self.keeps_none() {
            return self.win(pool);
        }
        Ok(Got {
            answer: Some(self.reuse()),
            woken: Woken::none(),
        })
    }

    /// Has the hand get a tag. It is out of line, so that a get is short where a tag is kept.
    #[inline]
    fn win(&mut self, pool: &Pool<R>) -> Result<Got<Option<u32>>, TagFault> {
        let Got { answer, woken } = pool.get(&mut self.hand)?;
        let Some(tag) = answer else {
            return Ok(Got { answer: None, woken });
        };
        self.learn(tag);
        Ok(Got {
            answer: Some(tag),
            woken,
        })
    }

    /// Takes a free reserved tag as `Pool::get_reserved` does, and sees to what it left free as that does. `NoReserved` means
    /// that there are none, `Spent` that the hand's life in the reserved set is used up.
    #[inline]
    pub fn get_reserved(&mut self, pool: &Pool<R>) -> Result<Got<Option<u32>>, TagFault> {
        pool.get_reserved(&mut self.hand)
    }

    /// Takes a free ordinary tag as `Pool::get_shallow` does: never one that is kept, which may lie beyond the depth.
    /// `TooShallow` means that `depth` is 0 or below the minimum shallow depth, `Spent` that the hand's life is used
    /// up.
    #[inline]
    pub fn get_shallow(&mut self, pool: &Pool<R>, depth: u32) -> Result<Got<Option<u32>>, TagFault> {
        pool.get_shallow(&mut self.hand, depth)
    }

    /// Takes up to `n` free ordinary tags out of `n` consecutive ones of one word, as `Pool::get_batch` does. It takes
    /// none of the kept tags, so it may find more after a `flush`. `BadCount` means an `n` out of range, `Spent` that
    /// the hand's life does not suffice for `n` more tags.
    #[inline]
    pub fn get_batch(&mut self, pool: &Pool<R>, n: u32) -> Result<Got<Option<(u32, u64)>>, TagFault> {
        pool.get_batch(&mut self.hand, n)
    }

    /// Takes as many free ordinary tags as the slice has places and writes them there, or takes none, as `Pool::get_many`
    /// does, and sees to what it left free as that does. It takes none of the kept tags, so it may find enough after a
    /// `flush`. `BadCount` means that there are fewer ordinary tags than places, `Spent` that the hand's life does not
    /// suffice for so many more tags.
    #[inline]
    pub fn get_many(&mut self, pool: &Pool<R>, tags: &mut [u32]) -> Result<Got<bool>, TagFault> {
        pool.get_many(&mut self.hand, tags)
    }
}
