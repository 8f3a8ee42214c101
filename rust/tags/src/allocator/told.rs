//! Tags that a call made free, and hands that were told of them.

use crate::options::Kind;
use crate::proved::tag_bell::Told;
use crate::sets::BySet;

/// How many tags of each set a call made free.
#[derive(Clone, Copy, Debug, Default, PartialEq, Eq)]
pub(crate) struct Freed(BySet<u32>);

impl Freed {
    pub const NONE: Freed = Freed(BySet::new(0, 0));

    /// So many of one set.
    #[inline]
    pub fn of(kind: Kind, count: u32) -> Freed {
        Freed(BySet::of(kind, count))
    }

    #[inline]
    pub fn is_none(self) -> bool {
        self == Freed::NONE
    }

    pub fn and(self, other: Freed) -> Freed {
        Freed(self.0.with(other.0, |one, more| one + more))
    }

    /// How many tags of a set.
    pub fn count(self, kind: Kind) -> u32 {
        self.0[kind]
    }
}

/// Hands that a call told of tags of each set, and that are to be woken.
#[must_use = "whoever was told is to be woken"]
#[derive(Clone, Copy, Debug, Default, PartialEq, Eq)]
pub(crate) struct Due(BySet<Hands>);

/// Hands that were told: a bit for the number of each.
#[derive(Clone, Copy, Debug, Default, PartialEq, Eq)]
pub(crate) struct Hands {
    /// Those whose thread sleeps.
    pub sleepers: u64,
    /// Those behind which futures wait.
    pub listeners: u64,
}

impl Hands {
    const NONE: Hands = Hands {
        sleepers: 0,
        listeners: 0,
    };

    #[inline]
    fn and(self, other: Hands) -> Hands {
        Hands {
            sleepers: self.sleepers | other.sleepers,
            listeners: self.listeners | other.listeners,
        }
    }
}

impl Due {
    pub const NOBODY: Due = Due(BySet::new(Hands::NONE, Hands::NONE));

    /// Those whom a call told of tags of one set.
    #[inline]
    pub fn of(kind: Kind, told: Told) -> Due {
        let hands = Hands {
            sleepers: told.sleepers(),
            listeners: told.listeners(),
        };
        Due(BySet::of(kind, hands))
    }

    #[inline]
    pub fn is_nobody(self) -> bool {
        self == Due::NOBODY
    }

    #[inline]
    pub fn and(self, other: Due) -> Due {
        Due(self.0.with(other.0, Hands::and))
    }

    /// Those told of tags of a set.
    pub fn told(self, kind: Kind) -> Hands {
        self.0[kind]
    }
}
