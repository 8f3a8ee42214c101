// Made of crates/tag_core/src/posts.rt, where the contracts are, by rust/generate.

//! Posts and takes: how a held tag passes from caller to caller, and the note that anybody may read meanwhile.

use crate::proved::tag_core::caller::Caller;
use crate::proved::tag_core::map::Map;

/// The greatest note.
pub const MOST_NOTE: u64 = u64::MAX - 1;

/// The note of which the word of a tag's state tells.
#[inline]
fn note_in(state: u64) -> Option<u64> {
    if state == 0 {
        return None;
    }
    Some(state - 1)
}

impl<R> Map<R> {
    /// Posts a held tag with its slot and a note, for whichever caller takes it first. Until then anybody may read the
    /// note. One step, a store.
    #[inline]
    pub fn post(&self, caller: &mut Caller<R>, tag: u32, note: u64) {
        let word = caller.layout.word_of(tag) as usize;
        let bit = 1u64 << caller.layout.place_of(tag);
        let table = &self.table.shared;
        let state = caller.state_spot(tag);
        table.store(&mut caller.seat, state, note + 1);
        let held = caller.held[word] & !bit;
        caller.held[word] = held;
    }

    /// Takes a posted tag with its slot, and ends its note. One step, a swap. Returns false if the tag was not posted; the
    /// caller then holds what it held.
    #[inline]
    pub fn take(&self, caller: &mut Caller<R>, tag: u32) -> bool {
        let word = caller.layout.word_of(tag) as usize;
        let bit = 1u64 << caller.layout.place_of(tag);
        let table = &self.table.shared;
        let state = caller.state_spot(tag);
        let found = table.swap(&mut caller.seat, state, 0);
        if found == 0 {
            return false;
        }
        let held = caller.held[word] | bit;
        caller.held[word] = held;
        true
    }

    /// Returns the note of a posted tag, whoever posted it. One step, a load. Returns `None` if the tag was not posted.
    #[inline]
    pub fn read_note(&self, caller: &mut Caller<R>, tag: u32) -> Option<u64> {
        let table = &self.table.shared;
        let state = caller.state_spot(tag);
        note_in(table.load(&mut caller.seat, state))
    }
}
