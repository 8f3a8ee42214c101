// Made of crates/wake_book/src/groups.rt, where the contracts are, by rust/generate.

//! The wait groups: eight words, each with a count of waiters and a count of grants, and the number of active waiters.

use crate::base::events::{CachePadded, EventCount};
use crate::base::table::{Seat, Table};
use crate::proved::step_ledger::Numbered;
use crate::proved::wake_book::spacing::STRIDE;

/// Index of the word that counts active waiters, after the spare word at 0 and the eight groups.
pub(crate) const ACTIVE: usize = 9 * STRIDE;

/// Index of the word that holds the wake index: the group that the next walk visits first.
pub(crate) const INDEX: usize = 10 * STRIDE;

/// Length of the table, in words. Its last word also has 64 bytes of its own.
pub(crate) const GROUP_WORDS: usize = 11 * STRIDE;

/// Number of groups. Each waiter enters them in turn.
pub(crate) const GROUPS: u32 = 8;

/// One waiter in a group's word, whose high 32 bits count those waiting and whose low 32 bits count unused grants.
pub(crate) const WAITING: u64 = 1 << 32;

/// Eight groups, shared by up to 64 waiters without a lock.
pub struct Groups {
    pub(crate) table: Table<()>,
    /// Number of waiters, 1 to 64.
    pub(crate) waiters: u32,
    /// The event count of each group, on which its sleepers wait.
    pub(crate) bells: [CachePadded<EventCount>; 8],
}

impl Groups {
    /// Returns the number of waiters, 1 to 64.
    pub fn waiters(&self) -> u32 {
        self.waiters
    }
}

/// A handle that waits and wakes others.
pub struct Waiter {
    pub(crate) seat: Seat<()>,
    /// Its number, from 0.
    pub(crate) number: u32,
    /// The group that it is in, 0 to 7, or `None`.
    pub(crate) standing: Option<u32>,
    /// The wait index: the group that it enters next, 0 to 7.
    pub(crate) next: u32,
    /// Waiters that it moved from waiting to granted, at most 2^56.
    pub(crate) moved: u64,
}

impl Numbered for Waiter {
    fn number(&self) -> u32 {
        self.number
    }
}

/// The waiters gathered so far.
pub struct WaiterGathering {
    /// The seat that holds the records of these waiters.
    pub(crate) seat: Seat<()>,
    /// Moves to granted by these waiters, as a saturating sum. 64 waiters of at most 2^56 moves each never saturate it.
    pub(crate) moved: u64,
}

/// The totals of the groups, known once all their waiters are gathered.
#[derive(Clone, Copy, Debug, PartialEq, Eq)]
pub struct GroupTotals {
    /// Grants made: waiters moved from waiting to granted.
    pub issued: u64,
    /// Grants used.
    pub used: u64,
    /// Grants not used yet.
    pub granted: u64,
    /// Waiters that are waiting without a grant.
    pub waiting: u64,
}

/// Returns the index of a group's word.
pub(crate) fn group_spot(group: u32) -> usize {
    STRIDE + STRIDE * group as usize
}
