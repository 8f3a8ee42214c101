// Made of crates/tag_pool/src/shown.rt, where the contracts are, by rust/generate.

//! Shows: the sizes of a set, and sums over its words.

use crate::proved::tag_pool::hand::Hand;
use crate::proved::tag_pool::kind::Kind;
use crate::proved::tag_pool::pool::Pool;

/// The sizes of a set and sums over its words, with the fields of `sbitmap_show` (lib/sbitmap.c).
#[derive(Clone, Copy, Debug, PartialEq, Eq)]
pub struct Shown {
    /// Number of tags.
    pub depth: u32,
    /// Tags found taken and then not set aside.
    pub busy: u32,
    /// Tags found set aside: cleared, but not free yet.
    pub cleared: u32,
    /// Bits in a whole word, 1 to 64.
    pub bits_per_word: u32,
    /// Number of words.
    pub map_nr: u32,
}

impl<R: Copy> Pool<R> {
    /// Returns the sizes of a set, and how many of its tags are busy and how many set aside. The hand's list has one
    /// load of each word, and then one of its cleared set; so while other hands act, the sums are not a snapshot of a
    /// single moment.
    #[inline]
    pub fn show(&self, hand: &mut Hand<R>, kind: Kind) -> Shown {
        let layout = self.layout(kind);
        let mut busy = 0u32;
        let mut cleared = 0u32;
        for word in 0..layout.words() {
            let (taken, aside) = self.look_both(hand, kind, word);
            let usable = layout.usable(word);
            busy += (taken & usable & !aside).count_ones();
            cleared += (aside & usable).count_ones();
        }
        Shown {
            depth: layout.depth(),
            busy,
            cleared,
            bits_per_word: 1 << layout.shift(),
            map_nr: layout.words(),
        }
    }
}
