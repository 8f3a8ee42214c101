// Made of crates/tag_core/src/settles.rt, where the contracts are, by rust/generate.

//! Settling: all callers are passed in, and the map stays.

use crate::base::vec::Vec;
use crate::proved::step_ledger::all_there;
use crate::proved::tag_core::caller::Caller;
use crate::proved::tag_core::closed::GatherFault;
use crate::proved::tag_core::loans::Loans;
use crate::proved::tag_core::map::Map;
use crate::proved::tag_core::settled::Settled;
use crate::proved::tag_core::together::Gathering;
use crate::proved::tag_model::Totals;

/// Has these callers lend their records to those gathered.
#[inline]
fn settle_rest<R>(tags: &Map<R>, mut all: Gathering<R>, callers: &mut Vec<Caller<R>>) -> (Loans<R>, Totals) {
    let Some(last) = callers.pop() else {
        return all.settle(tags);
    };
    let lender = all.lend(tags, last);
    let (mut loans, totals) = settle_rest(tags, all, callers);
    let last = loans.give_back(tags, lender);
    callers.push_reserved(last);
    (loans, totals)
}

/// Returns the totals of all callers, which stay unchanged.
#[inline]
fn settle_all<R>(tags: &Map<R>, callers: &mut Vec<Caller<R>>) -> Totals {
    let Some(last) = callers.pop() else { unreachable!() };
    let (all, lender) = tags.start_lending(last);
    let (mut loans, totals) = settle_rest(tags, all, callers);
    let last = loans.give_back(tags, lender);
    callers.push_reserved(last);
    totals
}

impl<R> Map<R> {
    /// Brings all callers of the map together, in any order, so that nobody else acts on it. If one is missing,
    /// `GatherFault` has the map and all callers back, unchanged.
    #[inline]
    pub fn settle(self, mut callers: Vec<Caller<R>>) -> Result<Settled<R>, GatherFault<R>> {
        if let Err(cause) = all_there(&callers, self.shape.callers) {
            return Err(GatherFault {
                cause,
                map: self,
                callers,
            });
        }
        let totals = settle_all(&self, &mut callers);
        Ok(Settled {
            tags: self,
            callers,
            totals,
        })
    }
}

impl<R> Settled<R> {
    /// Number of tags that the callers hold.
    #[inline]
    pub fn held(&self) -> u64 {
        self.totals.held
    }

    /// Number of tags that are posted.
    #[inline]
    pub fn posted(&self) -> u64 {
        self.totals.posted
    }

    /// Returns the map and its callers, in the order in which they were brought together.
    #[inline]
    pub fn back(self) -> (Map<R>, Vec<Caller<R>>) {
        (self.tags, self.callers)
    }
}
