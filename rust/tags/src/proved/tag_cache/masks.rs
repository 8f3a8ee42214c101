// Made of crates/tag_cache/src/masks.rt, where the contracts are, by rust/generate.

//! Clears of the ordinary tags of a mask, as a batch get answers it, that tell nobody.

use crate::proved::tag_cache::cache::{Cache, WINDOW};
use crate::proved::tag_pool::{Pool, TagFault};

impl<R: Copy> Cache<R> {
    /// Clears the ordinary tags of a mask that the user holds, in which bit `i` is tag `first + i` as in the answer of
    /// `get_batch`, and returns how many ordinary tags went back, which the caller has to see to. It does with them what
    /// `clear_batch_quietly` does with a list: it keeps none, and the kept tags go back first in the same case. They go
    /// back as by `Pool::clear_mask_quietly`. `NotHeld` also means that a tag is kept. `BadCount` means that the mask is
    /// empty; `NoSuchTag` that a number is not below the total, or a tag is reserved. Nothing changes on an error.
    #[inline]
    pub fn clear_mask_quietly(&mut self, pool: &Pool<R>, first: u32, mask: u64) -> Result<u32, TagFault> {
        self.check_mask(pool, first, mask)?;
        Ok(self.give_back_mask(pool, first, mask))
    }

    /// Checks that the mask has tags, that they are ordinary ones, and that the user holds each of them.
    #[inline]
    fn check_mask(&self, pool: &Pool<R>, first: u32, mask: u64) -> Result<(), TagFault> {
        pool.check_mask(&self.hand, first, mask)?;
        if self.kept & self.inside(first, mask) != 0 {
            return Err(TagFault::NotHeld);
        }
        Ok(())
    }

    /// Gives back the tags of a mask that the user holds, after all kept ones if none may be kept any more.
    #[inline]
    fn give_back_mask(&mut self, pool: &Pool<R>, first: u32, mask: u64) -> u32 {
        let left = self.known_outside(first, mask);
        if self.goes_on(left) {
            pool.clear_mask_held_quietly(&mut self.hand, first, mask);
            return mask.count_ones();
        }
        self.give_back_kept_and_mask(pool, left, first, mask)
    }

    /// Gives all kept tags back and then those of a mask that the user holds, after which it is known to hold only the
    /// tags that are `left`.
    #[inline]
    fn give_back_kept_and_mask(&mut self, pool: &Pool<R>, left: u64, first: u32, mask: u64) -> u32 {
        let kept = self.leave(pool, left);
        pool.clear_mask_held_quietly(&mut self.hand, first, mask);
        kept + mask.count_ones()
    }
}

impl<R> Cache<R> {
    /// Returns the mask of the tags that the user is known to hold, without those of a mask.
    #[inline]
    fn known_outside(&self, first: u32, mask: u64) -> u64 {
        self.known & !self.inside(first, mask)
    }

    /// Returns the tags of a mask that are in the window, as a mask of the window.
    #[inline]
    fn inside(&self, first: u32, mask: u64) -> u64 {
        if first.abs_diff(self.first) >= WINDOW {
            return 0;
        }
        if self.first < first {
            return mask << (first - self.first);
        }
        mask >> (self.first - first)
    }
}
