// Made of crates/tag_pool/src/options.rt, where the contracts are, by rust/generate.

//! The options with which a pool is opened.

use crate::proved::tag_model::MOST_WON;

/// The options with which a pool is opened.
#[derive(Clone, Copy, Debug, PartialEq, Eq)]
pub struct Options {
    /// Number of tags in both sets together, at most 10,240.
    pub depth: u32,
    /// How many of these tags are reserved: the first of the range.
    pub reserved: u32,
    /// Number of hands, 1 to 64.
    pub hands: u32,
    /// Binary logarithm of the bits in a whole word, 0 to 6. With `None` each set has the default for its own depth.
    pub shift: Option<u32>,
    /// Whether that default is the one for the number of hands, `Layout::shift_by_hands`, or else the kernel's,
    /// `Layout::default_shift`.
    pub by_hands: bool,
    /// Whether each get starts after the last tag won, so that tags are reused late.
    pub round_robin: bool,
    /// The minimum shallow depth, below which a shallow get is refused. With `None` only the shallow depth 0 is refused.
    pub min_shallow: Option<u32>,
    /// Tags that one hand may win of each set in all, at most 2^48.
    pub life: u64,
}

impl Options {
    /// Returns the options for this many tags, at most 10,240, and hands, 1 to 64, and otherwise the defaults: no reserved
    /// tags, the shift that fits the depth by the kernel's rule, no round robin, no minimum shallow depth, and the
    /// greatest life.
    #[inline]
    pub fn new(depth: u32, hands: u32) -> Options {
        Options {
            depth,
            reserved: 0,
            hands,
            shift: None,
            by_hands: false,
            round_robin: false,
            min_shallow: None,
            life: MOST_WON,
        }
    }

    /// Returns the number of hands that the words are for: all of them, or four by the kernel's rule.
    #[inline]
    pub(crate) fn counted_hands(&self) -> u32 {
        if self.by_hands {
            self.hands
        } else {
            4
        }
    }

    /// Returns these options with this many of the tags reserved.
    #[inline]
    pub fn with_reserved(self, reserved: u32) -> Options {
        Options { reserved, ..self }
    }

    /// Returns these options with words of `2^shift` bits, where `shift` is 0 to 6.
    #[inline]
    pub fn with_shift(self, shift: u32) -> Options {
        Options {
            shift: Some(shift),
            ..self
        }
    }

    /// Returns these options with words for their number of hands, where they name no shift: each set has as many whole
    /// words as hands, if it has the tags, and at least four.
    #[inline]
    pub fn with_words_by_hands(self) -> Options {
        Options { by_hands: true, ..self }
    }

    /// Returns these options with round robin gets.
    #[inline]
    pub fn with_round_robin(self) -> Options {
        Options {
            round_robin: true,
            ..self
        }
    }

    /// Returns these options with this minimum shallow depth.
    #[inline]
    pub fn with_min_shallow(self, depth: u32) -> Options {
        Options {
            min_shallow: Some(depth),
            ..self
        }
    }
}
