// Made of crates/tag_search/src/hint.rt, where the contracts are, by rust/generate.

//! The tag at which the next search begins, with the rules of lib/sbitmap.c.

/// The tag at which a caller's next search begins.
#[derive(Clone, Copy, Debug, PartialEq, Eq)]
pub struct Hint {
    /// The tag to begin at. A search reduces it modulo the depth if it is not below it.
    pub at: u32,
    /// Whether gets are round robin: each begins after the last tag won, and tries no earlier place of the hint's word.
    pub round_robin: bool,
}

impl Hint {
    /// Returns the tag at which a search of this depth begins, or 0 if there are no tags.
    #[inline]
    pub(crate) fn reduced(self, depth: u32) -> u32 {
        if self.at < depth {
            self.at
        } else {
            reduce(self.at, depth)
        }
    }

    /// Moves the hint after a search that began at `from`.
    #[inline]
    pub(crate) fn follow(&mut self, depth: u32, from: u32, answer: Option<u32>) {
        self.at = self.after_get(depth, from, answer);
    }

    /// Moves the hint after a search without round robin that began at it and won this tag: it stays unless the tag is its
    /// own.
    #[inline]
    pub(crate) fn follow_win(&mut self, depth: u32, tag: u32) {
        if tag == self.at {
            self.at = next_hint(depth, tag);
        }
    }

    /// Where the hint goes after a search that began at `from`.
    #[inline]
    pub(crate) fn after_get(self, depth: u32, from: u32, answer: Option<u32>) -> u32 {
        match answer {
            None => 0,
            Some(tag) if tag == from || self.round_robin => next_hint(depth, tag),
            Some(_) => from,
        }
    }
}

/// Moves the hint of a caller that cleared a tag to that tag, except under round robin.
#[inline]
pub fn after_clear(hint: &mut Hint, tag: u32) {
    if !hint.round_robin {
        hint.at = tag;
    }
}

/// Reduces a hint at or past the depth modulo the depth, where lib/sbitmap.c draws a random tag instead.
#[cold]
#[inline]
fn reduce(at: u32, depth: u32) -> u32 {
    if depth == 0 {
        0
    } else {
        at % depth
    }
}

/// Returns the tag after this one, or 0 if that would be the last tag or past it.
#[inline]
fn next_hint(depth: u32, tag: u32) -> u32 {
    if tag + 1 < depth - 1 {
        tag + 1
    } else {
        0
    }
}
