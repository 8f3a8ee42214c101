// Made of crates/wake_book/src/groups_closing.rt, where the contracts are, by rust/generate.

//! Gathers all waiters and closes the groups.

use crate::base::table::Closed;
use crate::base::vec::Vec;
use crate::proved::step_ledger::{all_there, gather_each, Gather, GatherCause};
use crate::proved::wake_book::book_closing::discard;
use crate::proved::wake_book::groups::{group_spot, GroupTotals, Groups, Waiter, WaiterGathering, GROUPS, WAITING};

/// The reason why `gather` failed, with the groups and the waiters that were passed in.
pub struct GroupsGatherFault {
    pub cause: GatherCause,
    pub groups: Groups,
    /// In the order in which they were passed in.
    pub waiters: Vec<Waiter>,
}

impl Groups {
    /// Closes the groups and returns their totals, if all their waiters are passed in, in any order, even those that
    /// are in a group. Otherwise it names the least missing number and hands everything back. For each waiter but the
    /// first, one load is in no waiter's list.
    pub fn gather(groups: Groups, waiters: Vec<Waiter>) -> Result<GroupTotals, GroupsGatherFault> {
        if let Err(cause) = all_there(&waiters, groups.waiters) {
            return Err(GroupsGatherFault { cause, groups, waiters });
        }
        let all = gather_each(&groups, waiters);
        Ok(groups.finish(all))
    }

    /// Starts a gathering with its first waiter.
    pub fn start_gathering(&self, waiter: Waiter) -> WaiterGathering {
        let Waiter {
            seat,
            number: _,
            standing: _,
            next: _,
            moved,
        } = waiter;
        WaiterGathering { seat, moved }
    }

    /// Closes the groups, once all waiters are gathered, and returns their totals. Waiters may still be in a group.
    pub fn finish(self, gathering: WaiterGathering) -> GroupTotals {
        let Groups {
            table,
            waiters: _,
            bells: _,
        } = self;
        let WaiterGathering { seat, moved } = gathering;
        let closed = table.close_with(seat);
        let (granted, waiting) = counts_of(&closed);
        discard(closed);
        GroupTotals {
            issued: moved,
            used: moved - granted,
            granted,
            waiting,
        }
    }
}

impl Gather for Groups {
    type Member = Waiter;

    type Gathering = WaiterGathering;

    fn take_first(&self, waiter: Waiter) -> WaiterGathering {
        self.start_gathering(waiter)
    }

    fn take_next(&self, gathering: &mut WaiterGathering, waiter: Waiter) {
        gathering.add(self, waiter);
    }
}

impl WaiterGathering {
    /// Adds a waiter of the groups to the gathering. The load that this takes is in no waiter's list.
    pub fn add(&mut self, groups: &Groups, waiter: Waiter) {
        let Waiter {
            seat,
            number: _,
            standing: _,
            next: _,
            moved,
        } = waiter;
        groups.table.shared.join_seat(&mut self.seat, seat);
        self.moved = self.moved.saturating_add(moved);
    }
}

/// Returns the grants and the waiting waiters of all groups together.
fn counts_of(closed: &Closed<()>) -> (u64, u64) {
    let mut granted = 0u64;
    let mut waiting = 0u64;
    for group in 0..GROUPS {
        let word = closed.word(group_spot(group));
        granted += word % WAITING;
        waiting += word / WAITING;
    }
    (granted, waiting)
}
