// Made of crates/tag_pool/src/resizes.rt, where the contracts are, by rust/generate.

//! Resizes a pool to another number of tags.

use crate::base::vec::{Global, Vec};
use crate::proved::step_ledger::{all_there, GatherCause, Numbered};
use crate::proved::tag_layout::{Layout, MAX_DEPTH};
use crate::proved::tag_pool::hand::Hand;
use crate::proved::tag_pool::pool::Pool;
use core::fmt;

mod checks;
mod next_map;
mod reopens;
mod shells;

/// Why a pool can't be resized. The causes are checked in this order.
#[derive(Clone, Copy, Debug, PartialEq, Eq)]
pub enum ResizeCause {
    /// A hand was not passed in: the least such number.
    Missing(u32),
    /// There would be more than 10,240 tags, or fewer than reserved ones.
    DepthTooLarge,
    /// Tags are in use, of either set: how many are held, and how many posted.
    InUse(u64, u64),
    /// Hands wait, for a tag of either set: how many.
    Waiting(u32),
    /// Out of memory.
    Memory,
}

impl fmt::Display for ResizeCause {
    fn fmt(&self, f: &mut fmt::Formatter<'_>) -> fmt::Result {
        match self {
            Self::Missing(first) => write!(f, "caller {first} is missing"),
            Self::DepthTooLarge => f.write_str("the number of tags is out of range"),
            Self::InUse(first, second) => write!(f, "{first} tags are held and {second} are posted"),
            Self::Waiting(first) => write!(f, "{first} callers wait"),
            Self::Memory => f.write_str("out of memory"),
        }
    }
}

impl core::error::Error for ResizeCause {}

/// The reason why `resize` failed, with the pool and the hands that were passed in.
pub struct PoolResizeFault<R> {
    pub cause: ResizeCause,
    pub pool: Pool<R>,
    /// In the order in which they were passed in.
    pub hands: Vec<Hand<R>>,
}

impl<R: Copy> Pool<R> {
    /// Resizes the ordinary set so that there are `depth` tags in both sets, and moves all hands to it. The ordinary tags
    /// are new and free, and their slots contain the initial value; the reserved set is unchanged. All hands must be passed
    /// in, in any order; no tag of either set may be held or posted, and no hand may wait, for a tag of either set. A refusal
    /// hands everything back.
    #[inline]
    pub fn resize(
        alloc: Global,
        pool: Pool<R>,
        mut hands: Vec<Hand<R>>,
        depth: u32,
    ) -> Result<(Pool<R>, Vec<Hand<R>>), PoolResizeFault<R>> {
        match pool.next_layout(&mut hands, depth) {
            Ok(layout) => pool.reopen(alloc, layout, depth, hands),
            Err(cause) => Err(PoolResizeFault { cause, pool, hands }),
        }
    }

    /// Returns the layout of the next map, if nothing but memory can prevent the resize.
    #[inline]
    fn next_layout(&self, hands: &mut Vec<Hand<R>>, total: u32) -> Result<Layout, ResizeCause> {
        if let Err(GatherCause::Missing(number)) = all_there(hands, self.ordinary.callers()) {
            return Err(ResizeCause::Missing(number));
        }
        let reserved = self.reserved_count;
        if total > MAX_DEPTH || total < reserved {
            return Err(ResizeCause::DepthTooLarge);
        }
        let shift = self.ordinary.layout().shift();
        let Ok(layout) = Layout::new(total - reserved, Some(shift)) else {
            unreachable!()
        };
        match self.busy_for(hands) {
            Some(cause) => Err(cause),
            None => Ok(layout),
        }
    }

    /// Returns what prevents the resize while all hands are present: tags in use, or hands that wait.
    #[inline]
    fn busy_for(&self, hands: &mut Vec<Hand<R>>) -> Option<ResizeCause> {
        let usage = self.usage(hands);
        let held = usage.ordinary.totals.held + usage.reserved.totals.held;
        let posted = usage.ordinary.totals.posted + usage.reserved.totals.posted;
        if held != 0 || posted != 0 {
            return Some(ResizeCause::InUse(held, posted));
        }
        let waiting = usage.reserved.waiting | usage.ordinary.waiting;
        let count = self.count_in(hands.as_slice(), waiting);
        if count != 0 {
            return Some(ResizeCause::Waiting(count));
        }
        None
    }
}

impl<R> Pool<R> {
    /// Returns how many of these hands have their bit in a mask.
    #[inline]
    fn count_in(&self, hands: &[Hand<R>], mask: u64) -> u32 {
        let mut count = 0u32;
        for hand in hands {
            if mask >> hand.number() & 1 == 1 {
                count += 1;
            }
        }
        count
    }
}
