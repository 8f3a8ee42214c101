// Made of crates/tag_pool/src/looks/busy.rt, where the contracts are, by rust/generate.

//! Lists the busy tags.

use crate::proved::tag_pool::hand::Hand;
use crate::proved::tag_pool::kind::Kind;
use crate::proved::tag_pool::looks::marks::mark;
use crate::proved::tag_pool::pool::Pool;

impl<R: Copy> Pool<R> {
    /// Sets bit `t % 64` of `into[t / 64]` for each busy tag `t`, clears all other bits, and returns the number of busy
    /// tags. A tag is busy if it was found taken and then not set aside. `into` must have a bit for each tag of both
    /// sets. The hand's list has one load of each word, and then one of its cleared set; so while other hands act, the
    /// tags are not a snapshot of a single moment.
    #[inline]
    pub fn busy(&self, hand: &mut Hand<R>, into: &mut [u64]) -> u32 {
        into.fill(0);
        let reserved = self.list_set(hand, Kind::Reserved, 0, into);
        let ordinary = self.list_set(hand, Kind::Ordinary, self.reserved_count, into);
        reserved + ordinary
    }

    /// Sets the bits of the busy tags of a set, whose first tag has bit `first`, and returns how many they are.
    #[inline]
    fn list_set(&self, hand: &mut Hand<R>, kind: Kind, first: u32, into: &mut [u64]) -> u32 {
        let layout = self.layout(kind);
        let mut count = 0u32;
        for word in 0..layout.words() {
            let (taken, aside) = self.look_both(hand, kind, word);
            let mask = taken & layout.usable(word) & !aside;
            let start = first + layout.tag_at(word, 0);
            mark(into, start, layout.word_depth(word), mask);
            count += mask.count_ones();
        }
        count
    }
}
