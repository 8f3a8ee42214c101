// Made of crates/tag_pool/src/looks/dump.rt, where the contracts are, by rust/generate.

//! Packs the busy tags of a set into bytes.

use crate::proved::tag_pool::hand::Hand;
use crate::proved::tag_pool::kind::Kind;
use crate::proved::tag_pool::looks::marks::mark_bytes;
use crate::proved::tag_pool::pool::Pool;

impl<R: Copy> Pool<R> {
    /// Packs a set into the first bytes of `into`, eight tags a byte, low bit first, where 1 is busy: found taken and
    /// then not set aside. Returns the number of those bytes, `ceil(depth / 8)`. The last one is padded with zeros, and
    /// the bytes after it are unchanged. The hand's list has one load of each word, and then one of its cleared set; so
    /// while other hands act, the bytes are not a snapshot of a single moment.
    #[inline]
    pub fn dump(&self, hand: &mut Hand<R>, kind: Kind, into: &mut [u8]) -> u32 {
        let count = self.layout(kind).depth().div_ceil(8);
        self.pack(hand, kind, &mut into[..count as usize]);
        count
    }

    /// Sets the bits of the busy tags of a set, and clears all others.
    #[inline]
    fn pack(&self, hand: &mut Hand<R>, kind: Kind, bytes: &mut [u8]) {
        let layout = self.layout(kind);
        bytes.fill(0);
        for word in 0..layout.words() {
            let (taken, aside) = self.look_both(hand, kind, word);
            let mask = taken & layout.usable(word) & !aside;
            let start = layout.tag_at(word, 0);
            mark_bytes(bytes, start, layout.word_depth(word), mask);
        }
    }
}
