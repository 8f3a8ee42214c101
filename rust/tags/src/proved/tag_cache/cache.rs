// Made of crates/tag_cache/src/cache.rt, where the contracts are, by rust/generate.

//! A thread's handle with the tags that it keeps for itself.

use crate::proved::tag_cache::keeping::Keeping;
use crate::proved::tag_pool::Hand;

/// Length of the window, and so the most tags that a cache keeps.
pub(crate) const WINDOW: u32 = 64;

/// How many kept tags are handed out again before a cache keeps no more: 2^56.
pub(crate) const MOST_REUSED: u64 = 1 << 56;

/// One thread's hand on tags, and which of the tags that the hand holds are kept for later gets. All kept tags are
/// ordinary, and in a window of 64 numbers. The user does not hold a kept tag; for the tag sets the hand still does.
pub struct Cache<R> {
    /// The first number of the window.
    pub(crate) first: u32,
    /// The most tags to be kept, 0 to 64.
    pub(crate) most: u32,
    /// How many more may be kept. A clear tests this number, as counting the kept ones takes a processor without such
    /// an instruction 20 others.
    pub(crate) room: u32,
    pub(crate) keeping: Keeping,
    /// Which tags of the window are kept: bit 0 is the first one, and 1 is kept.
    pub(crate) kept: u64,
    /// Which ordinary tags of the window the user is known to hold, and so need no test: bit 0 is the first one.
    pub(crate) known: u64,
    /// Number of kept tags that were handed out again.
    pub(crate) reused: u64,
    /// Must be the last field: a hand ends with padding, so that caches that are adjacent in memory share no cache line.
    pub(crate) hand: Hand<R>,
}

impl<R> Cache<R> {
    /// A cache that keeps no tag, and later up to `most` of them, at most 64, as `Keeping::Always` says.
    #[inline]
    pub fn new(hand: Hand<R>, most: u32) -> Cache<R> {
        Cache::with_keeping(hand, most, Keeping::Always)
    }

    /// Like `new`, but tags are kept as `keeping` says.
    #[inline]
    pub fn with_keeping(hand: Hand<R>, most: u32, keeping: Keeping) -> Cache<R> {
        let most = most.min(WINDOW);
        Cache {
            first: 0,
            most,
            room: most,
            keeping,
            kept: 0,
            known: 0,
            reused: 0,
            hand,
        }
    }
}
