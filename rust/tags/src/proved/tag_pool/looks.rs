// Made of crates/tag_pool/src/looks.rt, where the contracts are, by rust/generate.

//! Loads of the words of a set.

use crate::proved::tag_layout::Layout;
use crate::proved::tag_pool::hand::Hand;
use crate::proved::tag_pool::kind::Kind;
use crate::proved::tag_pool::pool::Pool;

mod busy;
mod dump;
pub(crate) mod marks;
pub(crate) mod texts;

impl<R> Pool<R> {
    /// Returns the layout of a set: how its tags are arranged in words.
    #[inline]
    pub fn layout(&self, kind: Kind) -> Layout {
        self.map(kind).layout()
    }
}

impl<R: Copy> Pool<R> {
    /// Loads a word of a set (1 is taken) and then its cleared set (1 is set aside): two loads, one after the other.
    #[inline]
    pub(crate) fn look_both(&self, hand: &mut Hand<R>, kind: Kind, word: u32) -> (u64, u64) {
        hand.side_mut(kind).look_both(self.map(kind), word)
    }
}
