// Made of crates/tag_pool/src/hand.rt, where the contracts are, by rust/generate.

//! The handle through which one thread uses both sets.

use crate::proved::step_ledger::Numbered;
use crate::proved::tag_pool::kind::Kind;
use crate::proved::tag_pool::side::Side;

/// One thread's handle on both sets of tags.
pub struct Hand<R> {
    /// Number of reserved tags, which are the first of the range.
    pub(crate) reserved_count: u32,
    pub(crate) reserved: Side<R>,
    /// Must be the last field: a side ends with padding, so hands that are adjacent in memory share no cache line.
    pub(crate) ordinary: Side<R>,
}

impl<R> Numbered for Hand<R> {
    #[inline]
    fn number(&self) -> u32 {
        self.ordinary.number
    }
}

impl<R> Hand<R> {
    /// Returns the hand's side in a set.
    #[inline(always)]
    pub(crate) fn side(&self, kind: Kind) -> &Side<R> {
        match kind {
            Kind::Ordinary => &self.ordinary,
            Kind::Reserved => &self.reserved,
        }
    }

    /// Lends the hand's side in a set.
    #[inline(always)]
    pub(crate) fn side_mut(&mut self, kind: Kind) -> &mut Side<R> {
        match kind {
            Kind::Ordinary => &mut self.ordinary,
            Kind::Reserved => &mut self.reserved,
        }
    }

    /// Returns whether the hand holds the tag. This makes no step.
    #[inline]
    pub fn holds(&self, tag: u32) -> bool {
        self.holds_past(self.reserved_count, tag)
    }

    /// Returns whether the hand holds the tag, as `holds` does, for a caller that has loaded the number of reserved tags.
    #[inline(always)]
    pub(crate) fn holds_past(&self, reserved: u32, tag: u32) -> bool {
        if tag < reserved {
            self.reserved.caller.holds(tag)
        } else {
            self.ordinary.caller.holds(tag - reserved)
        }
    }

    /// Returns how many tags of both sets the hand has won so far, over all resizes. Tags that it took are not among
    /// them. This makes no step.
    #[inline]
    pub fn won(&self) -> u64 {
        self.ordinary.caller.won() + self.reserved.caller.won()
    }

    /// Returns how many tags of both sets the hand has given back so far, over all resizes. Tags that it took are among
    /// them. This makes no step.
    #[inline]
    pub fn given(&self) -> u64 {
        self.ordinary.caller.back() + self.reserved.caller.back()
    }
}
