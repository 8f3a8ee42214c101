// Made of crates/tag_pool/src/side.rt, where the contracts are, by rust/generate.

//! What a hand has in one of the two sets, and the calls that work there, whichever set it is.

use crate::proved::step_ledger::Numbered;
use crate::proved::tag_core::{Caller, Map, Spent};
use crate::proved::tag_pool::fault::TagFault;
use crate::proved::tag_search::{on_map, Found, Hint};

/// A hand's caller in the map of one set, and where its gets start there.
pub struct Side<R> {
    /// Where its next get starts.
    pub(crate) hint: Hint,
    /// The number of the hand, from 0.
    pub(crate) number: u32,
    /// Must be the last field: it ends with padding.
    pub(crate) caller: Caller<R>,
}

impl<R> Side<R> {
    /// Returns the side of this caller, with this hint.
    #[inline]
    pub(crate) fn new(caller: Caller<R>, hint: Hint) -> Side<R> {
        let number = caller.number();
        Side { hint, number, caller }
    }

    /// Returns the caller alone.
    #[inline]
    pub(crate) fn into_caller(self) -> Caller<R> {
        let Side {
            hint: _,
            number: _,
            caller,
        } = self;
        caller
    }
}

impl<R: Copy> Side<R> {
    /// Moves the hint to the first tag of the hand's own part of the set. This makes no step.
    #[inline]
    pub(crate) fn place(&mut self, map: &Map<R>) {
        let depth = u64::from(map.layout().depth());
        let first = u64::from(self.number) * depth / u64::from(map.callers());
        self.hint.at = first as u32;
    }

    /// Loads a word of the set (1 is taken) and then its cleared set (1 is set aside): two loads, one after the other.
    #[inline]
    pub(crate) fn look_both(&mut self, map: &Map<R>, word: u32) -> (u64, u64) {
        let found = map.look(&mut self.caller, word);
        (found, map.look_aside(&mut self.caller, word))
    }

    /// Clears the tag with this number, as `put` does, or returns its fault: `NoSuchTag` or `NotHeld`.
    #[inline]
    pub(crate) fn clear(&mut self, map: &Map<R>, number: u32) -> Result<(), TagFault> {
        if number >= map.layout().depth() {
            return Err(TagFault::NoSuchTag);
        }
        if !self.caller.holds(number) {
            return Err(TagFault::NotHeld);
        }
        self.put(map, number);
        Ok(())
    }

    /// Sets a held tag aside, and moves the hint to it, unless it is round robin. One step.
    #[inline]
    pub(crate) fn put(&mut self, map: &Map<R>, tag: u32) {
        on_map::put(map, &mut self.caller, &mut self.hint, tag);
    }

    /// Returns the value in the slot of a held tag.
    #[inline]
    pub(crate) fn read(&mut self, map: &Map<R>, tag: u32) -> R {
        map.read(&mut self.caller, tag)
    }

    /// Writes the slot of a held tag, and returns its former value.
    #[inline]
    pub(crate) fn write(&mut self, map: &Map<R>, tag: u32, value: R) -> R {
        map.slot(&mut self.caller, tag, value)
    }

    /// Posts a held tag with its slot and a note. One step.
    #[inline]
    pub(crate) fn post(&mut self, map: &Map<R>, tag: u32, note: u64) {
        map.post(&mut self.caller, tag, note);
    }

    /// Returns the note of a posted tag, or `None` if the tag was not posted. One step.
    #[inline]
    pub(crate) fn read_note(&mut self, map: &Map<R>, tag: u32) -> Option<u64> {
        map.read_note(&mut self.caller, tag)
    }

    /// Takes a posted tag with its slot. One step. Returns false if the tag was not posted.
    #[inline]
    pub(crate) fn take(&mut self, map: &Map<R>, tag: u32) -> bool {
        map.take(&mut self.caller, tag)
    }

    /// Takes a free tag of the set, if a search finds one, and tells how many tags its sweeps left free.
    #[inline(always)]
    pub(crate) fn get(&mut self, map: &Map<R>) -> Result<Found<u32>, Spent> {
        on_map::get(map, &mut self.caller, &mut self.hint)
    }

    /// The same of a get that is limited to `depth` tags, which are shared out among the words in proportion.
    #[inline(always)]
    pub(crate) fn get_shallow(&mut self, map: &Map<R>, depth: u32) -> Result<Found<u32>, Spent> {
        on_map::get_shallow(map, &mut self.caller, &mut self.hint, depth)
    }

    /// Takes the tag with this number, if it is free, and no other.
    #[inline(always)]
    pub(crate) fn get_exactly(&mut self, map: &Map<R>, tag: u32) -> Result<Found<u32>, Spent> {
        on_map::get_exactly(map, &mut self.caller, tag)
    }

    /// Takes up to `n` free tags of a run, of which it returns the first and the mask of those won. Under round robin it
    /// returns `None` without a step.
    #[inline(always)]
    pub(crate) fn get_batch(&mut self, map: &Map<R>, n: u32) -> Result<Found<(u32, u64)>, Spent> {
        on_map::get_batch(map, &mut self.caller, &mut self.hint, n)
    }
}
