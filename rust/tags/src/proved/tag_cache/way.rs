// Made of crates/tag_cache/src/way.rt, where the contracts are, by rust/generate.

//! What becomes of an ordinary tag that is cleared: the one decision of a clear.

use crate::proved::tag_cache::cache::{Cache, WINDOW};

/// What becomes of an ordinary tag that is cleared.
#[derive(Clone, Copy)]
pub(crate) enum Way {
    /// It is kept besides the others.
    Keep,
    /// All kept tags go back, and it is kept instead of them.
    KeepInstead,
    /// It goes back, and the kept tags stay.
    GiveBack,
    /// All kept tags go back, and then it does.
    GiveBackAll,
}

impl<R> Cache<R> {
    /// Decides what becomes of an ordinary tag that is cleared.
    #[inline(always)]
    pub(crate) fn way(&self, tag: u32) -> Way {
        if self.is_last(tag) {
            return Way::GiveBackAll;
        }
        if !self.can_keep(tag) {
            return Way::GiveBack;
        }
        if self.lacks_place(tag) {
            return Way::KeepInstead;
        }
        Way::Keep
    }

    /// Returns whether there is no place to keep the tag besides those that are kept.
    #[inline(always)]
    fn lacks_place(&self, tag: u32) -> bool {
        if self.is_full() {
            return true;
        }
        if self.offset(tag) < WINDOW {
            return false;
        }
        !self.keeps_none()
    }
}
