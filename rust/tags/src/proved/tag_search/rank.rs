// Made of crates/tag_search/src/rank.rt, where the contracts are, by rust/generate.

//! The places of one word, in the order in which a pass tries them.

use crate::proved::tag_layout::first_clear;

/// The rest of a rank: the places `from .. limit`, and then `0 .. then`.
#[derive(Clone, Copy)]
pub struct Rank {
    /// The next place to try, 0 to 64.
    pub from: u32,
    /// End of the first part, exclusive, 0 to 64.
    pub limit: u32,
    /// End of the second part, which begins at place 0, exclusive, 0 to 64. 0 if there is no second part.
    pub then: u32,
}

impl Rank {
    /// Returns the places from `start` to `limit` and then, if `wrap` is set, those before `start`.
    #[inline]
    pub fn new(start: u32, limit: u32, wrap: bool) -> Rank {
        let then = if wrap { start.min(limit) } else { 0 };
        Rank {
            from: start,
            limit,
            then,
        }
    }

    /// Advances to the next place whose bit is 0 in `taken`, and returns it. `None` if all the rest are taken.
    #[inline]
    pub fn next(&mut self, taken: u64) -> Option<u32> {
        if let Some(place) = first_clear(taken, self.from, self.limit) {
            self.from = place + 1;
            return Some(place);
        }
        let place = first_clear(taken, 0, self.then)?;
        *self = Rank {
            from: place + 1,
            limit: self.then,
            then: 0,
        };
        Some(place)
    }
}
