// Made of crates/wake_book/src/rings.rt, where the contracts are, by rust/generate.

//! Rings, which wake sleepers, and what a waiter's latest ring was for.

use crate::proved::wake_book::grants::Grants;
use crate::proved::wake_book::groups::{Groups, Waiter, GROUPS};

impl Groups {
    /// Wakes one sleeper of a group for each grant in it, or all of the group if there are fewer. This makes no step.
    #[inline(never)]
    pub fn ring(&self, _waiter: &mut Waiter, grants: Grants) {
        for group in 0..GROUPS as usize {
            for _ in 0..grants.in_group[group] {
                self.bells[group].notify_one();
            }
        }
    }

    /// Wakes `count` sleepers in each group, or all of the group if there are fewer, and grants nobody anything. This
    /// makes no step.
    #[inline(never)]
    pub fn nudge(&self, _waiter: &mut Waiter, count: u64) {
        for group in 0..GROUPS as usize {
            for _ in 0..count {
                self.bells[group].notify_one();
            }
        }
    }
}
