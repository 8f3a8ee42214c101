// Made of crates/tag_cache/src/clears.rt, where the contracts are, by rust/generate.

//! Clears of one tag that tell nobody.

use crate::proved::tag_cache::cache::Cache;
use crate::proved::tag_cache::way::Way;
use crate::proved::tag_pool::{Kind, Pool, TagFault};

impl<R: Copy> Cache<R> {
    /// Clears a tag that the user holds, and tells nobody. Returns how many ordinary tags went back, which the caller has to
    /// see to. An ordinary tag is kept, by no step. If there is no place for it, all kept tags go back and it is kept
    /// instead of them; if it may not be kept, it goes back alone; if nothing may be kept any more, all kept tags go back
    /// with it. `NoSuchTag` means that the number is not below the total, `NotHeld` that the user does not hold the tag,
    /// as where it is kept; nothing changes then.
    #[inline(always)]
    pub fn clear_quietly(&mut self, pool: &Pool<R>, tag: u32) -> Result<u32, TagFault> {
        if self.has_place(tag) {
            self.clear_placed(pool, tag);
            return Ok(0);
        }
        self.clear_unplaced(pool, tag)
    }

    /// Clears a tag that has a place (`has_place`), as `clear_quietly` does, which keeps each of these.
    #[inline(always)]
    pub fn clear_placed(&mut self, _pool: &Pool<R>, tag: u32) {
        let offset = self.offset(tag);
        self.keep_at(tag, offset);
    }

    /// Makes `clear_any` out of line, so that a clear is short where its tag has a place.
    #[inline]
    fn clear_unplaced(&mut self, pool: &Pool<R>, tag: u32) -> Result<u32, TagFault> {
        self.clear_any(pool, tag)
    }

    /// Clears any tag, as `clear_quietly` does, with no test whether it has a place: for a caller that has made that test.
    #[inline(always)]
    pub fn clear_any(&mut self, pool: &Pool<R>, tag: u32) -> Result<u32, TagFault> {
        match self.find_held(pool, tag)? {
            Kind::Ordinary => Ok(self.clear_ordinary(pool, tag)),
            Kind::Reserved => {
                self.give_back(pool, tag);
                Ok(0)
            }
        }
    }

    /// Clears an ordinary tag that the user holds, and returns how many ordinary tags went back.
    #[inline(always)]
    fn clear_ordinary(&mut self, pool: &Pool<R>, tag: u32) -> u32 {
        match self.way(tag) {
            Way::Keep => {
                self.keep(tag);
                0
            }
            Way::KeepInstead => self.keep_instead(pool, tag),
            Way::GiveBack => {
                self.give_back(pool, tag);
                1
            }
            Way::GiveBackAll => self.give_back_all(pool, tag),
        }
    }

    /// Gives all kept tags back and keeps this one instead of them. Returns how many went back.
    #[inline]
    fn keep_instead(&mut self, pool: &Pool<R>, tag: u32) -> u32 {
        let freed = self.give_back_kept(pool);
        self.keep(tag);
        freed
    }

    /// Gives a tag back that the user holds, and keeps the same tags.
    #[inline]
    fn give_back(&mut self, pool: &Pool<R>, tag: u32) {
        self.forget(tag);
        pool.clear_held_quietly(&mut self.hand, tag);
    }

    /// Gives all kept tags back, and then a tag that the user holds. Returns how many went back.
    #[inline]
    fn give_back_all(&mut self, pool: &Pool<R>, tag: u32) -> u32 {
        if self.keeps_none() {
            self.give_back(pool, tag);
            return 1;
        }
        let kept = self.give_back_kept(pool);
        self.give_back(pool, tag);
        kept + 1
    }
}
