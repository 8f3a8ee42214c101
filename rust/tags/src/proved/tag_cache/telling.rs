// Made of crates/tag_cache/src/telling.rt, where the contracts are, by rust/generate.

//! Calls that give tags back, and then see to what they made free and to what is kept: where somebody waits for a tag, all
//! kept ones go back too, and others are told of as many tags as became free, and the sleepers among them woken.

use crate::proved::tag_cache::cache::Cache;
use crate::proved::tag_pool::{Hand, Kind, Pool, TagFault, Woken};

impl<R: Copy> Cache<R> {
    /// Clears a tag that the user holds as `clear_quietly` does. If it is an ordinary one and somebody waits for one, all
    /// kept tags then go back, and it tells others as `Pool::see_to` does, of as many tags as became free in all; of a
    /// reserved one it tells others of that one alone. It wakes the sleepers. Returns whom it told. `NoSuchTag` means that
    /// the number is not below the total, `NotHeld` that the user does not hold the tag, as where it is kept; nothing
    /// changes then.
    #[inline]
    pub fn clear(&mut self, pool: &Pool<R>, tag: u32) -> Result<Woken, TagFault> {
        let freed = self.freed_with(pool, tag);
        self.clear_quietly(pool, tag)?;
        Ok(self.wake_for(pool, pool.kind(tag), freed))
    }

    /// Clears 1 to 64 ordinary tags that the user holds as `clear_batch_quietly` does, and then tells and wakes as `clear`
    /// does. It is refused as `clear_batch_quietly` is: `BadCount`, `NoSuchTag`, `NotHeld`; nothing changes then.
    #[inline]
    pub fn clear_batch(&mut self, pool: &Pool<R>, list: &[u32]) -> Result<Woken, TagFault> {
        let kept = self.count();
        self.clear_batch_quietly(pool, list)?;
        Ok(self.wake(pool, Kind::Ordinary, kept + list.len() as u32))
    }

    /// Clears the ordinary tags of a mask that the user holds as `clear_mask_quietly` does, and then tells and wakes as
    /// `clear` does. It is refused as `clear_mask_quietly` is: `BadCount`, `NoSuchTag`, `NotHeld`; nothing changes then.
    #[inline]
    pub fn clear_mask(&mut self, pool: &Pool<R>, first: u32, mask: u64) -> Result<Woken, TagFault> {
        let kept = self.count();
        self.clear_mask_quietly(pool, first, mask)?;
        Ok(self.wake(pool, Kind::Ordinary, kept + mask.count_ones()))
    }

    /// Gives up a tag that the user holds with its slot as `post_quietly` does, and then sees to the kept tags that went back,
    /// if any did, and wakes those whom this told. `NoSuchTag` means that the number is not below the total, `NotHeld`
    /// that the user does not hold the tag, as where it is kept; nothing changes then.
    #[inline]
    pub fn post(&mut self, pool: &Pool<R>, tag: u32) -> Result<Woken, TagFault> {
        self.post_noted(pool, tag, 0)
    }

    /// Gives up a tag as `post` does, with a note that any hand may read until the tag is taken, at most
    /// `tag_core::MOST_NOTE`.
    #[inline]
    pub fn post_noted(&mut self, pool: &Pool<R>, tag: u32, note: u64) -> Result<Woken, TagFault> {
        let freed = self.post_noted_quietly(pool, tag, note)?;
        Ok(self.wake_for(pool, Kind::Ordinary, freed))
    }

    /// Gives all kept tags back, by one step for each word as `Pool::clear_mask` does, and sees to them: it tells others
    /// as `Pool::see_to` does, of as many tags as became free, and wakes the sleepers. If nothing is kept it makes no step.
    /// Call it before the thread is idle or sleeps: what it keeps nobody else finds.
    #[inline]
    pub fn flush(&mut self, pool: &Pool<R>) -> Woken {
        let freed = self.flush_quietly(pool);
        self.wake_for(pool, Kind::Ordinary, freed)
    }

    /// Gives all kept tags back and sees to them, as `flush` does. Returns the hand, which holds what the user holds, and
    /// whom this told.
    #[inline]
    pub fn into_hand(mut self, pool: &Pool<R>) -> (Hand<R>, Woken) {
        let woken = self.flush(pool);
        let Cache { hand, .. } = self;
        (hand, woken)
    }

    /// Returns how many tags of its kind a clear of this one makes free if somebody waits: this one, and if it is ordinary the
    /// kept tags, by the clear or after it.
    #[inline]
    fn freed_with(&self, pool: &Pool<R>, tag: u32) -> u32 {
        match pool.kind(tag) {
            Kind::Ordinary => self.count() + 1,
            Kind::Reserved => 1,
        }
    }
}
