// Made of crates/tag_layout/src/layout.rt, where the contracts are, by rust/generate.

//! The layout of a map: from tags to words and places, and back.

/// The most tags of one map.
pub const MAX_DEPTH: u32 = 10_240;

/// The greatest shift: a word has at most 64 bits.
pub const MAX_SHIFT: u32 = 6;

/// Why there is no such layout.
#[derive(Clone, Copy, Debug, PartialEq, Eq)]
pub enum LayoutFault {
    /// More than `MAX_DEPTH` tags.
    DepthTooLarge,
    /// A shift above `MAX_SHIFT`.
    ShiftTooLarge,
}

/// `depth` tags in words of `2^shift` bits each, of which the last may use fewer.
/// Tag `t` is the bit at place `t mod 2^shift` of word `t >> shift`.
#[derive(Clone, Copy, Debug, PartialEq, Eq)]
pub struct Layout {
    /// Number of tags. 0 is legal, and has no words.
    depth: u32,
    /// Binary logarithm of the number of bits in a whole word, 0 to 6.
    shift: u32,
}

impl Layout {
    /// Lays out `depth` tags in words of `2^shift` tags, or, without a shift, of the number that `default_shift` gives.
    /// `DepthTooLarge` means more than 10,240 tags, `ShiftTooLarge` a shift above 6.
    #[inline]
    pub fn new(depth: u32, shift: Option<u32>) -> Result<Layout, LayoutFault> {
        Layout::by_hands(depth, 4, shift)
    }

    /// As `new`, but without a shift the words are of the number that `shift_by_hands` gives.
    #[inline]
    pub fn by_hands(depth: u32, hands: u32, shift: Option<u32>) -> Result<Layout, LayoutFault> {
        if depth > MAX_DEPTH {
            return Err(LayoutFault::DepthTooLarge);
        }
        let shift = match shift {
            Some(wanted) => wanted,
            None => Layout::shift_by_hands(depth, hands),
        };
        if shift > MAX_SHIFT {
            return Err(LayoutFault::ShiftTooLarge);
        }
        Ok(Layout { depth, shift })
    }

    /// The default shift by the kernel's rule: the greatest one, up to 6, with which the map has at least four whole
    /// words, and 6 below four tags, as `sbitmap_calculate_shift` (lib/sbitmap.c) computes it.
    #[inline]
    pub fn default_shift(depth: u32) -> u32 {
        Layout::shift_by_hands(depth, 4)
    }

    /// The default shift for so many hands: the greatest one, up to 6, with which the map has as many whole words as hands,
    /// and at least four. It is 0 with fewer tags than hands, and 6 below four tags. So threads seldom share a word,
    /// and it is `default_shift` while there are 64 tags for each hand.
    #[inline]
    pub fn shift_by_hands(depth: u32, hands: u32) -> u32 {
        if depth < 4 {
            return MAX_SHIFT;
        }
        let tags = (depth / hands.max(4)).max(1);
        tags.ilog2().min(MAX_SHIFT)
    }

    /// Number of tags.
    #[inline]
    pub fn depth(self) -> u32 {
        self.depth
    }

    /// Binary logarithm of the number of bits in a whole word, 0 to 6.
    #[inline]
    pub fn shift(self) -> u32 {
        self.shift
    }

    /// Number of words: `map_nr` in lib/sbitmap.c.
    #[inline]
    pub fn words(self) -> u32 {
        (self.depth + (1 << self.shift) - 1) >> self.shift
    }

    /// The word in which a tag stands.
    #[inline]
    pub fn word_of(self, tag: u32) -> u32 {
        tag >> self.shift
    }

    /// The tag's place in its word: the place of its bit, the lowest first.
    #[inline]
    pub fn place_of(self, tag: u32) -> u32 {
        tag & ((1 << self.shift) - 1)
    }

    /// The tag at a place of a word.
    #[inline]
    pub fn tag_at(self, word: u32, place: u32) -> u32 {
        (word << self.shift) + place
    }

    /// Number of bits that a word uses: `2^shift`, or fewer in the last word.
    #[inline]
    pub fn word_depth(self, word: u32) -> u32 {
        (self.depth - (word << self.shift)).min(1 << self.shift)
    }

    /// The bits that a word uses, as a mask: 1 is usable.
    #[inline]
    pub fn usable(self, word: u32) -> u64 {
        u64::MAX >> (64 - self.word_depth(word))
    }
}
