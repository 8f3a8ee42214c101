// Made of crates/tag_pool/src/loans.rt, where the contracts are, by rust/generate.

//! Hands that lend their records, so that all hands of a pool are together for a while, and get them back.

use crate::proved::tag_core::{Gathering, Lender, Loans, Map};
use crate::proved::tag_pool::gather::together::Together;
use crate::proved::tag_pool::hand::Hand;
use crate::proved::tag_pool::pool::Pool;
use crate::proved::tag_pool::side::Side;
use crate::proved::tag_search::Hint;

/// A side whose caller has lent its record.
pub(crate) struct LentSide<R> {
    pub(crate) hint: Hint,
    pub(crate) number: u32,
    pub(crate) lender: Lender<R>,
}

/// A hand whose callers have lent their records.
pub(crate) struct LentHand<R> {
    pub(crate) reserved_count: u32,
    pub(crate) reserved: LentSide<R>,
    pub(crate) ordinary: LentSide<R>,
}

/// The records of all hands of a pool, so that nobody else acts on it.
pub(crate) struct Lent<R> {
    pub(crate) reserved: Loans<R>,
    pub(crate) ordinary: Loans<R>,
}

impl<R> Side<R> {
    /// Starts to bring the map's callers together, with that of this side.
    #[inline]
    fn start_lending(self, map: &Map<R>) -> (Gathering<R>, LentSide<R>) {
        let Side { hint, number, caller } = self;
        let (first, lender) = map.start_lending(caller);
        let lent = LentSide { hint, number, lender };
        (first, lent)
    }

    /// Has the side's caller lend its record to those gathered.
    #[inline]
    fn lend(self, map: &Map<R>, all: &mut Gathering<R>) -> LentSide<R> {
        let Side { hint, number, caller } = self;
        let lender = all.lend(map, caller);
        LentSide { hint, number, lender }
    }
}

impl<R> LentSide<R> {
    /// Returns the side, whose caller lent its record last, with its record.
    #[inline]
    fn take_back(self, map: &Map<R>, loans: &mut Loans<R>) -> Side<R> {
        let LentSide { hint, number, lender } = self;
        let caller = loans.give_back(map, lender);
        Side { hint, number, caller }
    }
}

impl<R> Pool<R> {
    /// Starts to bring the pool's hands together, with this one.
    #[inline]
    pub(crate) fn start_lending(&self, hand: Hand<R>) -> (Together<R>, LentHand<R>) {
        let Hand {
            reserved_count,
            reserved,
            ordinary,
        } = hand;
        let (first, reserved) = reserved.start_lending(&self.reserved);
        let (rest, ordinary) = ordinary.start_lending(&self.ordinary);
        let together = Together {
            reserved: first,
            ordinary: rest,
        };
        let lent = LentHand {
            reserved_count,
            reserved,
            ordinary,
        };
        (together, lent)
    }
}

impl<R> Together<R> {
    /// Has a hand lend its records to those gathered.
    #[inline]
    pub(crate) fn lend(&mut self, pool: &Pool<R>, hand: Hand<R>) -> LentHand<R> {
        let Hand {
            reserved_count,
            reserved,
            ordinary,
        } = hand;
        LentHand {
            reserved_count,
            reserved: reserved.lend(&pool.reserved, &mut self.reserved),
            ordinary: ordinary.lend(&pool.ordinary, &mut self.ordinary),
        }
    }
}

impl<R> Lent<R> {
    /// Returns the hand that lent its records last, unchanged.
    #[inline]
    pub(crate) fn give_back(&mut self, pool: &Pool<R>, hand: LentHand<R>) -> Hand<R> {
        let LentHand {
            reserved_count,
            reserved,
            ordinary,
        } = hand;
        Hand {
            reserved_count,
            reserved: reserved.take_back(&pool.reserved, &mut self.reserved),
            ordinary: ordinary.take_back(&pool.ordinary, &mut self.ordinary),
        }
    }
}
