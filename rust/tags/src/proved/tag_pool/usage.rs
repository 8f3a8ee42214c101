// Made of crates/tag_pool/src/usage.rt, where the contracts are, by rust/generate.

//! Counts the tags that are in use, and finds who waits, while all hands of a pool are together.

use crate::base::vec::Vec;
use crate::proved::tag_core::{Gathering, Loans, Map};
use crate::proved::tag_model::Totals;
use crate::proved::tag_pool::gather::together::Together;
use crate::proved::tag_pool::hand::Hand;
use crate::proved::tag_pool::loans::Lent;
use crate::proved::tag_pool::pool::Pool;

/// What the hands of a pool have in use in one set, and who waits there.
#[derive(Clone, Copy)]
pub(crate) struct SetUsage {
    pub(crate) totals: Totals,
    /// A bit is 1 if the hand of that number waits.
    pub(crate) waiting: u64,
}

/// The same of both sets.
#[derive(Clone, Copy)]
pub(crate) struct Usage {
    pub(crate) reserved: SetUsage,
    pub(crate) ordinary: SetUsage,
}

/// Returns what all callers of a set, which have lent their records, have in use, and who of them waits.
#[inline]
fn usage_of_set<R>(mut all: Gathering<R>, map: &Map<R>) -> (Loans<R>, SetUsage) {
    let waiting = all.waiting(map);
    let (loans, totals) = all.settle(map);
    (loans, SetUsage { totals, waiting })
}

impl<R> Together<R> {
    /// Returns what all hands of the pool, which have lent their records, have in use, and who waits.
    #[inline]
    fn usage(self, pool: &Pool<R>) -> (Lent<R>, Usage) {
        let Together { reserved, ordinary } = self;
        let (first, reserved) = usage_of_set(reserved, &pool.reserved);
        let (rest, ordinary) = usage_of_set(ordinary, &pool.ordinary);
        let lent = Lent {
            reserved: first,
            ordinary: rest,
        };
        (lent, Usage { reserved, ordinary })
    }
}

/// Has these hands lend their records to those gathered.
#[inline]
fn usage_of_rest<R>(pool: &Pool<R>, mut all: Together<R>, hands: &mut Vec<Hand<R>>) -> (Lent<R>, Usage) {
    let Some(last) = hands.pop() else {
        return all.usage(pool);
    };
    let lender = all.lend(pool, last);
    let (mut loans, usage) = usage_of_rest(pool, all, hands);
    let last = loans.give_back(pool, lender);
    hands.push_reserved(last);
    (loans, usage)
}

impl<R> Pool<R> {
    /// Brings all hands together for a moment, and returns what they have in use and who waits. The hands are unchanged.
    #[inline]
    pub(crate) fn usage(&self, hands: &mut Vec<Hand<R>>) -> Usage {
        let Some(last) = hands.pop() else { unreachable!() };
        let (all, lender) = self.start_lending(last);
        let (mut loans, usage) = usage_of_rest(self, all, hands);
        let last = loans.give_back(self, lender);
        hands.push_reserved(last);
        usage
    }
}
