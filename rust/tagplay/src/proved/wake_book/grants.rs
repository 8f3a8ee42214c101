// Made of crates/wake_book/src/grants.rt, where the contracts are, by rust/generate.

//! The wakeups that a walk granted, group by group.

/// The wakeups that a walk granted.
#[derive(Clone, Copy, Debug, PartialEq, Eq)]
pub struct Grants {
    /// Waiters that it moved from waiting to granted, 0 to 8: the sum of `in_group`.
    pub woken: u32,
    /// Of these, those of group `g`, 0 to 7, at index `g`.
    pub in_group: [u8; 8],
}

/// The grants of a walk that moved nobody, and of no walk at all.
pub const NO_GRANTS: Grants = Grants {
    woken: 0,
    in_group: [0; 8],
};
