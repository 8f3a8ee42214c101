//! Tags that a hand holds.

use crate::batch::Numbers;

/// A tag that a hand holds, for the one guard that it has. It is made where the hand comes by the tag, and used up
/// where the tag goes: so whoever has it is the tag's only user.
#[derive(Debug)]
pub(crate) struct Held(u32);

impl Held {
    /// For a tag that a hand has just come by, or that it holds without a guard.
    pub(super) fn new(number: u32) -> Held {
        Held(number)
    }

    #[inline]
    pub fn number(&self) -> u32 {
        self.0
    }

    /// For a guard that is dropped: it passes its tag on, and is not used any more.
    #[inline]
    pub fn pass(&mut self) -> Held {
        Held(self.0)
    }
}

/// Ordinary tags that a hand holds, for the one guard that they have together.
pub(crate) struct HeldMask(Numbers);

impl HeldMask {
    /// For tags that a hand has just come by.
    pub(super) fn new(numbers: Numbers) -> HeldMask {
        HeldMask(numbers)
    }

    pub fn numbers(&self) -> Numbers {
        self.0
    }

    pub fn is_empty(&self) -> bool {
        self.0.mask() == 0
    }

    /// Splits a tag off.
    pub fn remove(&mut self, number: u32) -> Option<Held> {
        if !self.0.has(number) {
            return None;
        }
        let first = self.0.first();
        self.0 = Numbers::new(first, self.0.mask() & !(1 << (number - first)));
        Some(Held(number))
    }

    /// For a guard that is dropped: it passes its tags on, and has none any more.
    pub fn pass(&mut self) -> HeldMask {
        let first = self.0.first();
        HeldMask(core::mem::replace(&mut self.0, Numbers::new(first, 0)))
    }
}
