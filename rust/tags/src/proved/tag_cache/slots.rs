// Made of crates/tag_cache/src/slots.rt, where the contracts are, by rust/generate.

//! The slots of held tags, and how tags pass from thread to thread.

use crate::proved::tag_cache::cache::Cache;
use crate::proved::tag_pool::{Pool, TagFault};

impl<R: Copy> Cache<R> {
    /// Returns the value in the slot of a tag that the user holds. `NoSuchTag` means that the number is not below the
    /// total, `NotHeld` that the user does not hold the tag, as where it is kept; nothing changes then.
    #[inline]
    pub fn read(&mut self, pool: &Pool<R>, tag: u32) -> Result<R, TagFault> {
        if self.knows(tag) {
            return Ok(self.read_known(pool, tag));
        }
        if self.keeps(tag) {
            return Err(TagFault::NotHeld);
        }
        pool.read(&mut self.hand, tag)
    }

    /// Writes the slot of a tag that the user holds, and returns its former value. `NoSuchTag` means that the number is
    /// not below the total, `NotHeld` that the user does not hold the tag, as where it is kept; nothing changes then.
    #[inline]
    pub fn write(&mut self, pool: &Pool<R>, tag: u32, value: R) -> Result<R, TagFault> {
        if self.knows(tag) {
            return Ok(self.write_known(pool, tag, value));
        }
        self.check_unknown(pool, tag)?;
        Ok(self.write_unknown(pool, tag, value))
    }

    /// Checks that the user holds a tag that it is not known to hold. It is out of line, so that other writes are short.
    #[inline]
    fn check_unknown(&self, pool: &Pool<R>, tag: u32) -> Result<(), TagFault> {
        let _ = self.find_held(pool, tag)?;
        Ok(())
    }

    /// Writes the slot of a tag that the user holds, and returns its former value.
    #[inline]
    fn write_unknown(&mut self, pool: &Pool<R>, tag: u32, value: R) -> R {
        pool.write_held(&mut self.hand, tag, value)
    }

    /// Gives up a tag that the user holds with its slot, so that another thread can `take` it, and tells nobody. If tags are
    /// kept only while the user holds one, and this is the last that it is known to hold, all kept tags go back first.
    /// Returns how many went back, which the caller has to see to. `NoSuchTag` means that the number is not below the
    /// total, `NotHeld` that the user does not hold the tag, as where it is kept; nothing changes then.
    #[inline]
    pub fn post_quietly(&mut self, pool: &Pool<R>, tag: u32) -> Result<u32, TagFault> {
        self.post_noted_quietly(pool, tag, 0)
    }

    /// Gives up a tag as `post_quietly` does, with a note that any hand may read until the tag is taken, at most
    /// `tag_core::MOST_NOTE`.
    #[inline]
    pub fn post_noted_quietly(&mut self, pool: &Pool<R>, tag: u32, note: u64) -> Result<u32, TagFault> {
        if self.knows(tag) {
            return Ok(self.post_known(pool, tag, note));
        }
        self.post_other(pool, tag, note)?;
        Ok(0)
    }

    /// Gives up a tag that the user is not known to hold.
    #[inline]
    fn post_other(&mut self, pool: &Pool<R>, tag: u32, note: u64) -> Result<(), TagFault> {
        if self.keeps(tag) {
            return Err(TagFault::NotHeld);
        }
        pool.post_noted(&mut self.hand, tag, note)
    }

    /// Gives up a tag that the user is known to hold. If it is the last, all kept tags go back first. Returns how many went
    /// back.
    #[inline]
    fn post_known(&mut self, pool: &Pool<R>, tag: u32, note: u64) -> u32 {
        if self.is_last(tag) {
            let freed = self.flush_quietly(pool);
            self.post_alone(pool, tag, note);
            return freed;
        }
        self.post_alone(pool, tag, note);
        0
    }

    /// Gives up a tag that the user is known to hold, and no kept tag with it. If it is the last, none is kept.
    #[inline]
    fn post_alone(&mut self, pool: &Pool<R>, tag: u32, note: u64) {
        self.forget(tag);
        let Ok(()) = pool.post_noted(&mut self.hand, tag, note) else {
            unreachable!()
        };
    }

    /// Returns the note of a posted tag, or `None` if it is not posted, as `Pool::read_note`. `NoSuchTag` means that the number
    /// is not below the total.
    #[inline]
    pub fn read_note(&mut self, pool: &Pool<R>, tag: u32) -> Result<Option<u64>, TagFault> {
        pool.read_note(&mut self.hand, tag)
    }

    /// Takes a posted tag with its slot. `NotPosted` leaves what the user holds unchanged. `NoSuchTag` means that the
    /// number is not below the total.
    #[inline]
    pub fn take(&mut self, pool: &Pool<R>, tag: u32) -> Result<(), TagFault> {
        pool.take(&mut self.hand, tag)
    }
}
