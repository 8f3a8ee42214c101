// Made of crates/tag_pool/src/gather.rt, where the contracts are, by rust/generate.

//! Gathers all hands and closes the pool.

use crate::base::vec::Vec;
use crate::proved::step_ledger::{all_there, gather_each, GatherCause};
use crate::proved::tag_model::Totals;
use crate::proved::tag_pool::gather::together::Together;
use crate::proved::tag_pool::hand::Hand;
use crate::proved::tag_pool::pool::Pool;

pub(crate) mod together;

/// The reason why `gather` failed, with the pool and the hands that were passed in.
pub struct PoolGatherFault<R> {
    pub cause: GatherCause,
    pub pool: Pool<R>,
    /// In the order in which they were passed in.
    pub hands: Vec<Hand<R>>,
}

impl<R: Copy> Pool<R> {
    /// Closes the pool and returns its totals, if all hands are passed in, in any order, even those that wait or hold
    /// tags: tags won and given back since the pool was opened, over all its resizes, and tags now held and posted, all
    /// over both sets. Otherwise it names the least missing number and hands everything back.
    #[inline]
    pub fn gather(pool: Pool<R>, hands: Vec<Hand<R>>) -> Result<Totals, PoolGatherFault<R>> {
        if let Err(cause) = all_there(&hands, pool.ordinary.callers()) {
            return Err(PoolGatherFault { cause, pool, hands });
        }
        Ok(pool.close(hands))
    }

    /// Closes the pool with all its hands.
    #[inline]
    fn close(self, hands: Vec<Hand<R>>) -> Totals {
        let Together { reserved, ordinary } = gather_each(&self, hands);
        let Pool {
            reserved: first,
            ordinary: rest,
            ..
        } = self;
        add_up(rest.finish(ordinary).totals, first.finish(reserved).totals)
    }

    /// Drops the pool with the values in its slots, without totals.
    #[inline]
    pub fn discard(self) {
        let Pool { reserved, ordinary, .. } = self;
        drop(reserved);
        drop(ordinary);
    }
}

/// Returns the sums over both sets.
#[inline]
fn add_up(one: Totals, other: Totals) -> Totals {
    Totals {
        got: one.got + other.got,
        back: one.back + other.back,
        held: one.held + other.held,
        posted: one.posted + other.posted,
    }
}
