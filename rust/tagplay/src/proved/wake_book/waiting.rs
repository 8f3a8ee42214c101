// Made of crates/wake_book/src/waiting.rt, where the contracts are, by rust/generate.

//! How a waiter enters a group, looks at it, and leaves it.

use crate::base::sleep::Wait;
use crate::proved::wake_book::groups::{group_spot, Groups, Waiter, ACTIVE, GROUPS, INDEX, WAITING};

/// How a waiter left its group.
#[derive(Clone, Copy, Debug, PartialEq, Eq)]
pub enum Left {
    /// It used a grant of its group.
    Woken,
    /// It found no grant in its group.
    Unwoken,
}

/// How a waiter leaves a group with this word, and the word without it: it uses a grant if there is one, and otherwise
/// is no longer waiting.
fn way_out(found: u64) -> (Left, u64) {
    if found % WAITING > 0 {
        (Left::Woken, found - 1)
    } else {
        (Left::Unwoken, found - WAITING)
    }
}

impl Groups {
    /// Loads the active count: the number of waiters that have raised it and not lowered it yet. It is at least 1 if
    /// this waiter is in a group.
    pub fn active(&self, waiter: &mut Waiter) -> u64 {
        self.table.shared.load(&mut waiter.seat, ACTIVE)
    }

    /// Loads the wake index: the group that the next walk visits first, 0 to 7.
    pub fn index(&self, waiter: &mut Waiter) -> u32 {
        self.table.shared.load(&mut waiter.seat, INDEX) as u32
    }

    /// Loads the active count without a waiter.
    pub fn peek_active(&self) -> u64 {
        self.table.shared.peek(ACTIVE)
    }

    /// Loads the wake index without a waiter.
    pub fn peek_index(&self) -> u32 {
        (self.table.shared.peek(INDEX) % u64::from(GROUPS)) as u32
    }

    /// Returns the group that the waiter is in, 0 to 7. This makes no step.
    pub fn standing(waiter: &Waiter) -> Option<u32> {
        let Waiter { standing, .. } = waiter;
        *standing
    }

    /// Raises the active count, enters the group of the waiter's wait index, advances that index by one (modulo 8), and
    /// returns the group. This adds exactly two steps to the waiter's list.
    pub fn enter(&self, waiter: &mut Waiter) -> u32 {
        let group = waiter.next;
        self.table.shared.fetch_add(&mut waiter.seat, ACTIVE, 1);
        self.table
            .shared
            .fetch_add(&mut waiter.seat, group_spot(group), WAITING);
        waiter.standing = Some(group);
        waiter.next = (group + 1) % GROUPS;
        group
    }

    /// Leaves the waiter's group and lowers the active count. It uses a grant if it finds one there, whichever waiter
    /// the grant was made for, and otherwise withdraws.
    pub fn leave<R: Wait>(&self, rt: &R, waiter: &mut Waiter) -> Left {
        for _ in rt.forever() {
            if let Some(left) = self.try_leave(waiter) {
                return left;
            }
        }
        unreachable!()
    }

    /// Like `leave`, but makes one try only: one look and one exchange. `None` means that the group's word changed
    /// between the two, and that the waiter is still in the group.
    pub fn try_leave(&self, waiter: &mut Waiter) -> Option<Left> {
        let Some(group) = waiter.standing else { unreachable!() };
        let found = self.look_group(waiter, group);
        let (left, next) = way_out(found);
        let table = &self.table.shared;
        let seen = table.compare_exchange(&mut waiter.seat, group_spot(group), found, next);
        if seen != found {
            return None;
        }
        table.fetch_sub(&mut waiter.seat, ACTIVE, 1);
        waiter.standing = None;
        Some(left)
    }

    /// Loads the word of a group. If the waiter is in that group and finds no grant, it finds somebody waiting.
    pub(crate) fn look_group(&self, waiter: &mut Waiter, group: u32) -> u64 {
        self.table.shared.load(&mut waiter.seat, group_spot(group))
    }
}
