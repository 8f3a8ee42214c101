// Made of crates/tag_core/src/sleeps.rt, where the contracts are, by rust/generate.

//! How a caller sleeps, and how another rouses it. A sleeper waits on its own berth, so neither is in a list of steps.

use crate::base::sleep::Wait;
use crate::proved::tag_core::bell::Unroused;
use crate::proved::tag_core::berth::Berth;
use crate::proved::tag_core::caller::Caller;
use crate::proved::tag_core::map::Map;
use crate::proved::tag_core::spots::berth_spot;

/// The callers that were roused, a bit for the number of each. Only `rouse` adds any.
pub struct Roused {
    pub(crate) callers: u64,
}

impl Roused {
    /// Nobody.
    #[inline]
    pub fn none() -> Roused {
        Roused { callers: 0 }
    }

    /// Returns the callers that were roused.
    #[inline]
    pub fn callers(&self) -> u64 {
        self.callers
    }
}

impl<R> Map<R> {
    /// Sleeps until the caller is roused, unless it was told since it found itself listed so. Until it is told nobody
    /// changes its berth, on the low half of which it sleeps: so it misses no wakeup. It may also return for no reason.
    #[inline]
    pub fn sleep<W: Wait>(&self, rt: &W, caller: &Caller<R>, listed: Berth) {
        let expected = (listed.to_word() & u32::MAX as u64) as u32;
        let table = &self.table.shared;
        table.park(rt, berth_spot(caller.number), expected);
    }

    /// Rouses the caller of this number, if it is among those told: if it sleeps, it wakes. A tell changed the low half of
    /// its berth, so if it is about to sleep it does not.
    #[inline]
    pub fn rouse(&self, number: u32, told: &Unroused, roused: &mut Roused) {
        if told.callers() >> number & 1 == 0 {
            return;
        }
        self.table.shared.wake_one(berth_spot(number));
        roused.callers |= 1 << number;
    }
}
