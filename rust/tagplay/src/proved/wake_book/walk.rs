// Made of crates/wake_book/src/walk.rt, where the contracts are, by rust/generate.

//! The wake walk: moves waiters from waiting to granted, group by group.

use crate::proved::wake_book::grants::{Grants, NO_GRANTS};
use crate::proved::wake_book::groups::{group_spot, Groups, Waiter, GROUPS, INDEX, WAITING};

/// Exchanges that a walk may lose in one group before it goes on to the next.
const TRIES: u32 = 4;

/// The most waiters that one waiter may move to granted in all.
const MAX_MOVED: u64 = 1 << 56;

impl Groups {
    /// Moves up to `nr` waiters, 1 to 8, from waiting to granted, and returns how many it moved in each group. Like
    /// `__sbitmap_queue_wake_up` (lib/sbitmap.c) it visits the groups in cyclic order from the wake index, each at most
    /// once. It wakes no sleeper: the caller wakes as many in each group with `ring`, or by other means. A waiter that
    /// could exceed 2^56 moves in all makes no step and moves none.
    pub fn walk(&self, waiter: &mut Waiter, nr: u32) -> Grants {
        if waiter.moved + nr as u64 > MAX_MOVED || self.active(waiter) == 0 {
            return NO_GRANTS;
        }
        let mut group = self.index(waiter);
        let mut left = nr;
        let mut visits = 0u32;
        let mut in_group = [0; GROUPS as usize];
        while left > 0 && visits < GROUPS {
            let moved = self.visit(waiter, group, left);
            in_group[group as usize] += moved as u8;
            left -= moved;
            group = (group + 1) % GROUPS;
            visits += 1;
        }
        self.store_index(waiter, group);
        Grants {
            woken: nr - left,
            in_group,
        }
    }

    /// Moves up to `most` waiters of a group from waiting to granted, and returns how many.
    fn visit(&self, waiter: &mut Waiter, group: u32, most: u32) -> u32 {
        for _ in 0..TRIES {
            let found = self.look_group(waiter, group);
            let waiting = found / WAITING;
            if waiting == 0 {
                return 0;
            }
            let count = waiting.min(most as u64);
            if self.grant(waiter, group, found, count) {
                return count as u32;
            }
        }
        0
    }

    /// Moves `count` waiters from waiting to granted, if the group's word is still `found`.
    fn grant(&self, waiter: &mut Waiter, group: u32, found: u64, count: u64) -> bool {
        let new = found - WAITING * count + count;
        let seen = self
            .table
            .shared
            .compare_exchange(&mut waiter.seat, group_spot(group), found, new);
        if seen != found {
            return false;
        }
        waiter.moved += count;
        true
    }

    fn store_index(&self, waiter: &mut Waiter, group: u32) {
        self.table.shared.store(&mut waiter.seat, INDEX, group as u64);
    }
}
