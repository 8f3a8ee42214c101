// Made of crates/tag_model/src/world.rt, where the contracts are, by rust/generate.

//! A world: where each tag is, and what each caller has won and given back.

use crate::base::vec::{AllocError, Global, Vec};
use crate::proved::tag_layout::Layout;
use crate::proved::tag_model::entries::Entries;
use crate::proved::tag_model::event::{Event, EventFault};
use crate::proved::tag_model::place::Place;
use crate::proved::tag_model::totals::Totals;

/// The most callers of one world.
pub const MAX_CALLERS: u32 = 64;

/// The most tags that one caller may win: 2^48.
pub const MOST_WON: u64 = 281_474_976_710_656;

/// Why there is no such world.
#[derive(Clone, Copy, Debug, PartialEq, Eq)]
pub enum ModelFault {
    /// There was no memory for it.
    Memory,
    /// No caller, or more than `MAX_CALLERS`.
    CallerCount,
}

/// Where each tag is, and how many tags each caller has won and given back.
pub struct World {
    entries: Entries,
    /// Tags that each caller has won, at most `MOST_WON`.
    won: Vec<u64>,
    /// Tags that each caller has put or given back, its own or others' that it took.
    back: Vec<u64>,
}

impl World {
    /// Opens a world in which all tags are free, for 1 to `MAX_CALLERS` callers. `CallerCount` means that their number
    /// is out of range; `Memory` comes last.
    #[inline]
    pub fn open(alloc: Global, layout: Layout, callers: u32) -> Result<World, ModelFault> {
        if callers == 0 || callers > MAX_CALLERS {
            return Err(ModelFault::CallerCount);
        }
        match World::all_free(alloc, layout, callers) {
            Ok(world) => Ok(world),
            Err(_) => Err(ModelFault::Memory),
        }
    }

    #[inline]
    fn all_free(alloc: Global, layout: Layout, callers: u32) -> Result<World, AllocError> {
        Ok(World {
            entries: Entries::open(alloc, layout)?,
            won: Vec::filled(alloc, 0, callers as usize)?,
            back: Vec::filled(alloc, 0, callers as usize)?,
        })
    }

    /// Where the tag is.
    #[inline]
    pub fn place(&self, tag: u32) -> Place {
        self.entries.place(tag)
    }

    /// The sums over all callers and tags.
    #[inline]
    pub fn totals(&self) -> Totals {
        Totals {
            got: sum_of(&self.won),
            back: sum_of(&self.back),
            held: self.entries.held(),
            posted: self.entries.posted(),
        }
    }

    /// One event. A fault leaves the world as it was.
    #[inline]
    pub fn apply(&mut self, event: Event) -> Result<(), EventFault> {
        self.test(event)?;
        if !self.entries.bring(event) {
            return Err(event.missing());
        }
        add_at(&mut self.won, event.caller(), event.won());
        add_at(&mut self.back, event.caller(), event.back());
        Ok(())
    }

    /// Events one after another, up to the first that can't happen: its index in the list, from 0, and its fault.
    /// The world then stands after the events before it.
    #[inline]
    pub fn run(&mut self, events: &[Event]) -> Result<Totals, (usize, EventFault)> {
        for (index, event) in events.iter().enumerate() {
            if let Err(fault) = self.apply(*event) {
                return Err((index, fault));
            }
        }
        Ok(self.totals())
    }

    /// Checks the numbers that the event names and its caller's room, but not where its tags are.
    #[inline]
    fn test(&self, event: Event) -> Result<(), EventFault> {
        if !event.is_in(self.entries.layout()) {
            return Err(EventFault::NoSuchTag);
        }
        let caller = event.caller() as usize;
        if caller >= self.won.len() {
            return Err(EventFault::NoSuchCaller);
        }
        if self.won[caller] + u64::from(event.won()) > MOST_WON {
            return Err(EventFault::Spent);
        }
        Ok(())
    }
}

/// More at one caller's count.
#[inline]
fn add_at(counts: &mut [u64], caller: u32, more: u32) {
    let at = caller as usize;
    let count = counts[at] + u64::from(more);
    counts[at] = count;
}

#[inline]
fn sum_of(counts: &[u64]) -> u64 {
    counts.iter().sum()
}
