// Made of crates/tag_search/src/shared.rt, where the contracts are, by rust/generate.

//! The port to a shared map. Each call is the map's own, made by one of its callers.

use crate::proved::tag_core::{Caller, Claim, Map};
use crate::proved::tag_layout::Layout;
use crate::proved::tag_search::port::Port;

/// One caller's access to the words of a map that it shares with other callers.
pub struct Shared<'a, R> {
    /// The map.
    map: &'a Map<R>,
    /// The caller that makes the steps.
    caller: &'a mut Caller<R>,
    /// Number of tags that the sweeps through this port freed.
    freed: u64,
    /// The word of the latest sweep that freed tags.
    word: u32,
    /// The tags that it freed, as a mask; 0 before the first.
    mask: u64,
}

impl<'a, R> Shared<'a, R> {
    /// Returns a port for `caller`, which is one of the callers of `map`.
    #[inline]
    pub fn new(map: &'a Map<R>, caller: &'a mut Caller<R>) -> Shared<'a, R> {
        Shared {
            map,
            caller,
            freed: 0,
            word: 0,
            mask: 0,
        }
    }

    /// Returns how many tags the sweeps through this port freed, less those of the latest sweep that the caller holds.
    #[inline]
    pub fn left(&self) -> u64 {
        if self.freed == 0 {
            return 0;
        }
        let held = self.mask & self.caller.held_in(self.word);
        self.freed.saturating_sub(held.count_ones() as u64)
    }
}

impl<R> Port for Shared<'_, R> {
    #[inline]
    fn layout(&self) -> Layout {
        self.map.layout()
    }

    #[inline]
    fn room(&self, n: u32) -> bool {
        self.caller.room(n)
    }

    #[inline]
    fn look(&mut self, word: u32) -> u64 {
        self.map.look(self.caller, word)
    }

    #[inline]
    fn claim(&mut self, word: u32, mask: u64, asked: u32) -> Claim {
        self.map.claim_counted(self.caller, word, mask, asked)
    }

    #[inline]
    fn claim_one(&mut self, word: u32, place: u32) -> Result<(), u64> {
        self.map.claim_one(self.caller, word, place)
    }

    #[inline]
    fn sweep(&mut self, word: u32) -> u64 {
        if self.map.look_aside(self.caller, word) == 0 {
            return 0;
        }
        let mask = self.map.sweep(self.caller, word);
        if mask == 0 {
            return 0;
        }
        self.freed = self.freed.saturating_add(mask.count_ones() as u64);
        self.word = word;
        self.mask = mask;
        mask
    }

    #[inline]
    fn sweep_keeping(&mut self, word: u32) -> Option<u32> {
        let seen = self.map.look_aside(self.caller, word);
        if seen == 0 {
            return None;
        }
        let kept = self.map.keep_least(self.caller, word)?;
        if kept.rest != 0 {
            self.freed = self.freed.saturating_add(kept.rest.count_ones() as u64);
            self.word = word;
            self.mask = kept.rest;
        }
        Some(kept.place)
    }
}
