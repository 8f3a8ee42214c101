// Made of crates/tag_cache/src/flush.rt, where the contracts are, by rust/generate.

//! Kept tags are given back.

use crate::proved::tag_cache::cache::Cache;
use crate::proved::tag_pool::{Hand, Pool};

impl<R: Copy> Cache<R> {
    /// Gives all kept tags back, by one step for each word as `Pool::clear_mask` does, and tells nobody. Returns how many
    /// they were, which the caller has to see to. If nothing is kept it makes no step.
    #[inline]
    pub fn flush_quietly(&mut self, pool: &Pool<R>) -> u32 {
        self.give_back_kept(pool)
    }

    /// Gives all kept tags back, and returns how many they were. The window stays where it is.
    #[inline]
    pub(crate) fn give_back_kept(&mut self, pool: &Pool<R>) -> u32 {
        let kept = self.kept;
        if kept == 0 {
            return 0;
        }
        self.kept = 0;
        self.room = self.most;
        pool.clear_mask_held_quietly(&mut self.hand, self.first, kept);
        kept.count_ones()
    }

    /// Gives all kept tags back, as `flush_quietly` does. Returns the hand, which holds what the user holds, and how many
    /// they were.
    #[inline]
    pub fn into_hand_quietly(mut self, pool: &Pool<R>) -> (Hand<R>, u32) {
        let freed = self.flush_quietly(pool);
        let Cache { hand, .. } = self;
        (hand, freed)
    }
}
