// Made of crates/tag_model/src/place.rt, where the contracts are, by rust/generate.

//! Where a tag can be.

/// The one place in which a tag is. Callers go by their numbers, from 0.
#[derive(Clone, Copy, Debug, PartialEq, Eq)]
pub enum Place {
    /// Nobody's: the next to claim it wins it.
    Free,
    /// Won by this caller, and not given back.
    Held(u32),
    /// Handed on for any caller to take.
    Posted,
    /// Given back into its word's cleared set, and not yet taken out of the word.
    Aside,
    /// Taken out of the cleared set by this caller, who is about to free it.
    Sweep(u32),
}

impl Place {
    /// Whether somebody holds the tag.
    #[inline]
    pub(crate) fn is_held(self) -> bool {
        matches!(self, Place::Held(_))
    }

    /// Whether the tag is posted.
    #[inline]
    pub(crate) fn is_posted(self) -> bool {
        matches!(self, Place::Posted)
    }

    /// The place after the caller took what is aside.
    #[inline]
    pub(crate) fn swept_by(self, caller: u32) -> Place {
        match self {
            Place::Aside => Place::Sweep(caller),
            other => other,
        }
    }

    /// The place after the caller freed what it swept.
    #[inline]
    pub(crate) fn spilled_by(self, caller: u32) -> Place {
        match self {
            Place::Sweep(by) if by == caller => Place::Free,
            other => other,
        }
    }
}
