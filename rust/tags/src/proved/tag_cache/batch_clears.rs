// Made of crates/tag_cache/src/batch_clears.rt, where the contracts are, by rust/generate.

//! Clears of several ordinary tags at once that tell nobody.

use crate::proved::tag_cache::cache::{Cache, WINDOW};
use crate::proved::tag_pool::{Pool, TagFault};

impl<R: Copy> Cache<R> {
    /// Clears 1 to 64 ordinary tags that the user holds, as `Pool::clear_batch_quietly` does, and returns how many
    /// ordinary tags went back, which the caller has to see to. It keeps none of them. All kept tags go back first if tags
    /// are kept only while the user holds one, and it is known to hold none but these. `NotHeld` also means that a tag is
    /// kept. `BadCount` means no tag, or more than 64; `NoSuchTag` that a number is not below the total, or a tag is
    /// reserved. Nothing changes on an error.
    #[inline]
    pub fn clear_batch_quietly(&mut self, pool: &Pool<R>, list: &[u32]) -> Result<u32, TagFault> {
        pool.check_batch(&self.hand, list)?;
        if !self.keeps_none_of(list) {
            return Err(TagFault::NotHeld);
        }
        Ok(self.give_back_list(pool, list))
    }

    /// Gives back a list of tags that the user holds, after all kept ones if none may be kept any more.
    #[inline]
    fn give_back_list(&mut self, pool: &Pool<R>, list: &[u32]) -> u32 {
        let left = self.known_without_all(list);
        if self.goes_on(left) {
            pool.clear_batch_held_quietly(&mut self.hand, list);
            return list.len() as u32;
        }
        self.give_back_kept_and_list(pool, left, list)
    }

    /// Gives all kept tags back and then a list of tags that the user holds, after which it is known to hold only the
    /// tags that are `left`.
    #[inline]
    fn give_back_kept_and_list(&mut self, pool: &Pool<R>, left: u64, list: &[u32]) -> u32 {
        let kept = self.leave(pool, left);
        pool.clear_batch_held_quietly(&mut self.hand, list);
        kept + list.len() as u32
    }
}

impl<R> Cache<R> {
    /// Returns whether none of the tags is kept.
    #[inline]
    fn keeps_none_of(&self, list: &[u32]) -> bool {
        for tag in list {
            if self.keeps(*tag) {
                return false;
            }
        }
        true
    }

    /// Returns the mask of the tags that the user is known to hold, without these.
    #[inline]
    fn known_without_all(&self, list: &[u32]) -> u64 {
        let mut left = self.known;
        for tag in list {
            left = self.without(left, *tag);
        }
        left
    }

    /// Returns a mask of the window without this tag.
    #[inline]
    fn without(&self, mask: u64, tag: u32) -> u64 {
        let offset = self.offset(tag);
        if offset >= WINDOW {
            return mask;
        }
        mask & !(1 << offset)
    }
}
