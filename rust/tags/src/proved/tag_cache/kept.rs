// Made of crates/tag_cache/src/kept.rt, where the contracts are, by rust/generate.

//! Which tags are kept.

use crate::proved::tag_cache::cache::{Cache, MOST_REUSED, WINDOW};
use crate::proved::tag_cache::keeping::Keeping;

impl<R> Cache<R> {
    /// Returns whether the tag is kept.
    #[inline(always)]
    pub fn keeps(&self, tag: u32) -> bool {
        let offset = self.offset(tag);
        if offset >= WINDOW {
            return false;
        }
        self.kept >> offset & 1 == 1
    }

    /// Returns the number of kept tags. Under `Keeping::WhileHolding` it is 0 unless the user holds a tag.
    #[inline(always)]
    pub fn count(&self) -> u32 {
        self.kept.count_ones()
    }

    /// Returns whether as many tags are kept as may be.
    #[inline(always)]
    pub(crate) fn is_full(&self) -> bool {
        self.room == 0
    }

    /// Returns whether no tag is kept.
    #[inline(always)]
    pub fn keeps_none(&self) -> bool {
        self.kept == 0
    }

    /// Hands the least kept tag to the user.
    #[inline(always)]
    pub(crate) fn reuse(&mut self) -> u32 {
        let place = self.kept.trailing_zeros();
        let tag = self.first + place;
        self.hand_out_at(tag, place);
        tag
    }

    /// Hands a kept tag to the user.
    #[inline]
    pub(crate) fn hand_out(&mut self, tag: u32) {
        let offset = self.offset(tag);
        self.hand_out_at(tag, offset);
    }

    /// Hands a kept tag to the user, this far behind the first tag of the window.
    #[inline(always)]
    fn hand_out_at(&mut self, _tag: u32, offset: u32) {
        self.kept &= !(1 << offset);
        self.known |= 1 << offset;
        self.room += 1;
        self.reused += 1;
    }

    /// Returns whether the tag may be kept where no other is.
    #[inline]
    pub(crate) fn can_keep(&self, tag: u32) -> bool {
        if self.most == 0 {
            return false;
        }
        if self.reused >= MOST_REUSED {
            return false;
        }
        match self.keeping {
            Keeping::Always => true,
            Keeping::WhileHolding => self.offset(tag) < WINDOW,
        }
    }

    /// Keeps an ordinary tag that the user holds and that there is a place for. Where nothing is kept and the tag is
    /// outside the window, the window moves there.
    #[inline(always)]
    pub(crate) fn keep(&mut self, tag: u32) {
        self.follow(tag);
        let offset = self.offset(tag);
        self.keep_at(tag, offset);
    }

    /// Returns whether a clear keeps the tag if nobody waits: the user is known to hold it, and there is a place for it.
    #[inline(always)]
    pub fn has_place(&self, tag: u32) -> bool {
        if !self.knows(tag) {
            return false;
        }
        if self.is_full() {
            return false;
        }
        if self.reused >= MOST_REUSED {
            return false;
        }
        !self.is_last(tag)
    }

    /// Keeps an ordinary tag that the user holds and that there is a place for, this far behind the first tag of the
    /// window.
    #[inline(always)]
    pub(crate) fn keep_at(&mut self, _tag: u32, offset: u32) {
        self.known &= !(1 << offset);
        self.kept |= 1 << offset;
        self.room -= 1;
    }
}
