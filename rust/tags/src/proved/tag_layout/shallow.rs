// Made of crates/tag_layout/src/shallow.rt, where the contracts are, by rust/generate.

//! How a shallow depth is shared out among the words.

use crate::proved::tag_layout::layout::Layout;

/// Bits of the scaled reciprocal of a depth: enough for the shares of every map to be exact.
const SCALE_BITS: u32 = 40;

impl Layout {
    /// Returns how many places of a word a get of shallow depth `shallow` may use, possibly 0: the word's share of
    /// `shallow`, in proportion to its tags. The shares of all words add up to `shallow`, or to the depth if that is
    /// less.
    #[inline]
    pub fn shallow_limit(self, word: u32, shallow: u32) -> u32 {
        let shallow = shallow.min(self.depth());
        let first = word << self.shift();
        let past = first + self.word_depth(word);
        // One division serves both shares.
        let reciprocal = (1u64 << SCALE_BITS) / u64::from(self.depth()) + 1;
        self.share_of(shallow, past, reciprocal) - self.share_of(shallow, first, reciprocal)
    }

    /// n / depth is n * reciprocal >> SCALE_BITS, up to n = depth * depth.
    #[inline]
    fn share_of(self, shallow: u32, tags: u32, reciprocal: u64) -> u32 {
        let product = u64::from(shallow) * u64::from(tags.min(self.depth()));
        ((product * reciprocal) >> SCALE_BITS) as u32
    }
}
