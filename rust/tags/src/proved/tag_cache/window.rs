// Made of crates/tag_cache/src/window.rt, where the contracts are, by rust/generate.

//! The window: its place, and which of its tags the user is known to hold.

use crate::proved::tag_cache::cache::{Cache, WINDOW};
use crate::proved::tag_cache::keeping::Keeping;

impl<R> Cache<R> {
    /// Returns how far the tag is behind the first one of the window, 0 to 63, or a larger number if it is outside.
    #[inline(always)]
    pub(crate) fn offset(&self, tag: u32) -> u32 {
        tag.wrapping_sub(self.first)
    }

    /// Returns whether the user is known to hold the tag, which is then an ordinary one.
    #[inline(always)]
    pub(crate) fn knows(&self, tag: u32) -> bool {
        let offset = self.offset(tag);
        if offset >= WINDOW {
            return false;
        }
        self.known >> offset & 1 == 1
    }

    /// Returns the mask of the tags that the user is known to hold, without this one.
    #[inline(always)]
    pub(crate) fn known_without(&self, tag: u32) -> u64 {
        let offset = self.offset(tag);
        if offset >= WINDOW {
            return self.known;
        }
        self.known & !(1 << offset)
    }

    /// Returns whether nothing may be kept any more once this tag is cleared or posted: the user is known to hold no
    /// other, and tags are kept only while it does.
    #[inline(always)]
    pub(crate) fn is_last(&self, tag: u32) -> bool {
        match self.keeping {
            Keeping::Always => false,
            Keeping::WhileHolding => self.known_without(tag) == 0,
        }
    }

    /// Says that it is no longer known that the user holds the tag, which is about to leave.
    #[inline(always)]
    pub(crate) fn forget(&mut self, tag: u32) {
        self.known = self.known_without(tag);
    }

    /// Moves the window to the tag if nothing is kept and the tag is outside. What the user holds in the former window is
    /// known no more.
    #[inline]
    pub(crate) fn aim(&mut self, tag: u32) {
        if self.kept != 0 {
            return;
        }
        if self.offset(tag) < WINDOW {
            return;
        }
        self.first = tag / WINDOW * WINDOW;
        self.known = 0;
    }

    /// Moves the window to a tag that is cleared as `aim` does, unless tags are kept only while the user is known to hold
    /// another.
    #[inline]
    pub(crate) fn follow(&mut self, tag: u32) {
        match self.keeping {
            Keeping::Always => self.aim(tag),
            Keeping::WhileHolding => {}
        }
    }

    /// Says that the user holds an ordinary tag, where nothing is kept. The window moves there first.
    #[inline]
    pub(crate) fn learn(&mut self, tag: u32) {
        self.aim(tag);
        self.note(tag);
    }

    /// Says that the user holds an ordinary tag, if it is in the window.
    #[inline]
    fn note(&mut self, tag: u32) {
        let offset = self.offset(tag);
        if offset >= WINDOW {
            return;
        }
        self.known |= 1 << offset;
    }
}
