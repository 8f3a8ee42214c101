// Made of crates/tag_cache/src/counts.rt, where the contracts are, by rust/generate.

//! How many tags a cache has handed to its user and taken back.

use crate::proved::tag_cache::cache::Cache;

impl<R> Cache<R> {
    /// Returns how many tags were handed to the user: those that the hand won so far, and kept ones that were handed out
    /// again. Tags that the user took are not among them.
    #[inline]
    pub fn handed_out(&self) -> u64 {
        self.hand.won() + self.reused
    }

    /// Returns how many tags were taken back from the user: those that the hand gave back so far, and those that are or
    /// were kept. While the user neither posts nor takes, `handed_out` less this changes by as much as the number of
    /// tags that it holds.
    #[inline]
    pub fn taken_back(&self) -> u64 {
        self.hand.given() + self.reused + u64::from(self.count())
    }

    /// Returns how many gets were answered with a kept tag. After 2^56 of them the cache keeps no more tags.
    #[inline]
    pub fn reused(&self) -> u64 {
        self.reused
    }
}
