//! Opening a pool's tags.

use crate::allocator::way::Terms;
use crate::allocator::{Core, Roster, Set, MAX_CACHE};
use crate::base::vec::Global;
use crate::cells::Values;
use crate::error::{Error, Result};
use crate::notes::Notes;
use crate::options::{Options, Shift};
use crate::proved::tag_cache::Keeping;
use crate::proved::tag_pool::{self, Pool, MOST_WON};
use crate::queues::Queues;
use crate::sleep::Sleeper;
use alloc::sync::Arc;

/// Each hand may win as much as the limit allows.
fn asked_for(options: &Options) -> tag_pool::Options {
    tag_pool::Options {
        depth: options.total,
        reserved: options.reserved,
        hands: options.hands,
        shift: match options.shift {
            Shift::Of(shift) => Some(shift),
            Shift::ByHands | Shift::AsKernel => None,
        },
        by_hands: options.shift == Shift::ByHands,
        round_robin: options.round_robin,
        min_shallow: options.min_shallow,
        life: MOST_WON,
    }
}

fn terms(options: &Options) -> Terms {
    let keeping = if options.keep_while_holding {
        Keeping::WhileHolding
    } else {
        Keeping::Always
    };
    Terms {
        most: options.cache,
        keeping,
    }
}

impl<T> Roster<T> {
    /// Opens tags that are all free, with slots of 0, and a value beside each. Their hands join in the order of their
    /// numbers until one is given back.
    pub fn open(options: &Options, sleeper: &'static dyn Sleeper, make: impl FnMut(u32) -> T) -> Result<Roster<T>> {
        if options.cache > MAX_CACHE {
            return Err(Error::CacheTooLarge);
        }
        let (tags, mut idle) = Pool::open(Global, asked_for(options), 0)?;
        idle.reverse();
        let set = Set {
            core: Core {
                tags,
                round_robin: options.round_robin,
            },
            values: Values::new(0..options.total, make)?,
            notes: options.notes.then(|| Notes::new(options.total)).transpose()?,
            queues: Queues::open(options, sleeper)?,
        };
        Ok(Roster {
            set: Some(Arc::new(set)),
            idle,
            hands: options.hands,
            terms: terms(options),
        })
    }
}
