// Made of crates/tag_pool/src/peeks.rt, where the contracts are, by rust/generate.

//! Reports without a hand, and so at any time.

use crate::proved::tag_pool::kind::Kind;
use crate::proved::tag_pool::looks::marks::mark;
use crate::proved::tag_pool::pool::Pool;
use crate::proved::tag_pool::shown::Shown;

impl<R: Copy> Pool<R> {
    /// Sets bit `t % 64` of `into[t / 64]` for each busy tag `t`, clears all other bits, and returns the number of busy
    /// tags, as `busy` does but without a hand.
    #[inline]
    pub fn peek_busy(&self, into: &mut [u64]) -> u32 {
        into.fill(0);
        let reserved = self.peek_set(Kind::Reserved, 0, into);
        let ordinary = self.peek_set(Kind::Ordinary, self.reserved_count, into);
        reserved + ordinary
    }

    /// Returns the sizes of a set, and how many of its tags are busy and how many set aside, as `show` does but without a
    /// hand.
    #[inline]
    pub fn peek_show(&self, kind: Kind) -> Shown {
        let layout = self.layout(kind);
        let mut busy = 0u32;
        let mut cleared = 0u32;
        for word in 0..layout.words() {
            let (taken, aside) = self.peek_both(kind, word);
            let usable = layout.usable(word);
            busy += (taken & usable & !aside).count_ones();
            cleared += (aside & usable).count_ones();
        }
        Shown {
            depth: layout.depth(),
            busy,
            cleared,
            bits_per_word: 1 << layout.shift(),
            map_nr: layout.words(),
        }
    }

    /// Sets the bits of the busy tags of a set, whose first tag has bit `first`, and returns how many they are.
    #[inline]
    fn peek_set(&self, kind: Kind, first: u32, into: &mut [u64]) -> u32 {
        let layout = self.layout(kind);
        let mut count = 0u32;
        for word in 0..layout.words() {
            let (taken, aside) = self.peek_both(kind, word);
            let mask = taken & layout.usable(word) & !aside;
            let start = first + layout.tag_at(word, 0);
            mark(into, start, layout.word_depth(word), mask);
            count += mask.count_ones();
        }
        count
    }

    /// Loads a word of a set (1 is taken) and then its cleared set (1 is set aside): two loads, one after the other.
    #[inline]
    fn peek_both(&self, kind: Kind, word: u32) -> (u64, u64) {
        let map = self.map(kind);
        let found = map.peek(word);
        (found, map.peek_aside(word))
    }
}
