// Made of crates/tag_bell/src/told.rt, where the contracts are, by rust/generate.

//! Who was told.

use crate::proved::tag_core::Unroused;

/// The callers that a call told, a bit for the number of each: 1 is told. Whoever gets it has to wake them, and can wake
/// nobody else by it.
pub struct Told {
    /// Those that it told as sleepers.
    pub(crate) sleepers: Unroused,
    /// Those that it told as listeners.
    pub(crate) listeners: Unroused,
}

impl Told {
    /// Nobody.
    #[inline]
    pub fn none() -> Told {
        Told {
            sleepers: Unroused::none(),
            listeners: Unroused::none(),
        }
    }

    /// Returns whether nobody was told.
    #[inline]
    pub fn is_none(&self) -> bool {
        self.sleepers() == 0 && self.listeners() == 0
    }

    /// Returns those that were told as sleepers.
    #[inline]
    pub fn sleepers(&self) -> u64 {
        self.sleepers.callers()
    }

    /// Returns those that were told as listeners.
    #[inline]
    pub fn listeners(&self) -> u64 {
        self.listeners.callers()
    }
}
