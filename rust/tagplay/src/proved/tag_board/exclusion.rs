// Made of crates/tag_board/src/exclusion.rt, where the contracts are, by rust/generate.

//! No tag has two holders: a tag that one caller holds is held by no other.

use crate::proved::tag_board::board::Board;

impl Board {
    /// Returns another caller that holds the tag, if there is one. It tests one bit per caller.
    fn other_holder(&self, caller: u32, tag: u32) -> Option<usize> {
        for other in 0..self.hands.len() {
            if other != caller as usize && self.hands[other].holds(tag) {
                return Some(other);
            }
        }
        None
    }

    /// Establishes that no other caller holds a tag that this one holds. If another did, `apart` on the two hands would
    /// refute it, so that branch is unreachable.
    fn tell_alone(&mut self, caller: u32, tag: u32) {
        if let Some(other) = self.other_holder(caller, tag) {
            let own = caller as usize;
            let mut later = self.hands.remove(own.max(other));
            let mut earlier = self.hands.remove(own.min(other));
            self.queue.apart(&mut earlier, &mut later, tag);
            unreachable!()
        }
    }

    /// Establishes that no caller but this one holds the answered tag, if there is one.
    pub(crate) fn tell_free(&mut self, caller: u32, answer: Option<u32>) {
        if let Some(tag) = answer {
            self.tell_alone(caller, tag);
        }
    }

    /// Establishes the same for each tag of a run. The lowest bit of the mask is the tag `first`.
    fn tell_each_alone(&mut self, caller: u32, first: u32, mask: u64) {
        for place in 0..64 {
            if mask & (1 << place) != 0 {
                self.tell_alone(caller, first + place);
            }
        }
    }

    /// Establishes that no caller but this one holds a tag of the answered batch, if there is one.
    pub(crate) fn tell_run_free(&mut self, caller: u32, answer: Option<(u32, u64)>) {
        if let Some((first, mask)) = answer {
            self.tell_each_alone(caller, first, mask);
        }
    }
}
