//! How a hand gets and clears tags.

use crate::allocator::Core;
use crate::proved::tag_cache::{Cache, Keeping};
use crate::proved::tag_pool::{Found, Hand, Numbered, TagFault};

/// How many tags each hand of a pool may keep, and when.
#[derive(Clone, Copy)]
pub(super) struct Terms {
    /// At most `MAX_CACHE`. 0 means that the hands have no cache.
    pub most: u32,
    pub keeping: Keeping,
}

/// A hand that is out, with a cache or without.
// With a tag of its own: one that shares bytes with a field takes more instructions to test.
#[repr(u8)]
pub(super) enum Way {
    Plain(Plain),
    Cached(Cached),
    /// The hand went back to its pool.
    Left,
}

/// A hand without a cache.
pub(super) struct Plain {
    pub hand: Hand<u64>,
    pub outcome: Outcome,
}

/// A hand with a cache.
pub(super) struct Cached {
    pub cache: Cache<u64>,
    pub outcome: Outcome,
}

/// How a get ended that did not simply win a tag.
pub(super) type Outcome = Option<Result<Found<u32>, TagFault>>;

/// Makes a call of a hand, with a cache or without. None is made after the hand has left.
macro_rules! by_way {
    ($way:expr, $hand:ident => $plain:expr, $cache:ident => $cached:expr) => {
        match $way {
            $crate::allocator::way::Way::Plain($crate::allocator::way::Plain { hand: $hand, .. }) => $plain,
            $crate::allocator::way::Way::Cached($crate::allocator::way::Cached { cache: $cache, .. }) => $cached,
            $crate::allocator::way::Way::Left => unreachable!("a hand that has left is not used"),
        }
    };
}

pub(super) use by_way;

impl Way {
    pub fn new(hand: Hand<u64>, terms: Terms) -> Way {
        match terms.most {
            0 => Way::Plain(Plain { hand, outcome: None }),
            most => Way::Cached(Cached {
                cache: Cache::with_keeping(hand, most, terms.keeping),
                outcome: None,
            }),
        }
    }

    pub fn number(&self) -> u32 {
        by_way!(self, hand => hand.number(), cache => cache.number())
    }

    /// Ends the use of the hand, and gives it up once it keeps nothing.
    pub fn leave(&mut self, core: &Core) -> Option<Hand<u64>> {
        match core::mem::replace(self, Way::Left) {
            Way::Plain(plain) => Some(plain.hand),
            Way::Cached(cached) => Some(cached.cache.into_hand_quietly(&core.tags).0),
            Way::Left => None,
        }
    }
}
