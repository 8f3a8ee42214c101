// Made of crates/tag_core/src/claims.rt, where the contracts are, by rust/generate.

//! Claims: how tags are won.

use crate::proved::tag_core::caller::Caller;
use crate::proved::tag_core::map::Map;
use crate::proved::tag_core::spots::word_spot;

/// What one claim won.
#[derive(Clone, Copy, Debug, PartialEq, Eq)]
pub struct Claim {
    /// The bits of the mask that were 0, whose tags the caller now holds: 1 is won.
    pub won: u64,
    /// The word just before the step: 1 is taken.
    pub found: u64,
}

/// The tags asked for could exceed the caller's life. No step was made.
#[derive(Clone, Copy, Debug, PartialEq, Eq)]
pub struct Spent;

impl<R> Map<R> {
    /// Sets the bits of the mask in a word, and wins the tags whose bits were 0. One step, `fetch_or`. `Spent`: the
    /// mask has more bits than the caller may still win within its life; nothing changes then.
    #[inline]
    pub fn claim(&self, caller: &mut Caller<R>, word: u32, mask: u64) -> Result<Claim, Spent> {
        let asked = mask.count_ones();
        if !caller.room(asked) {
            return Err(Spent);
        }
        Ok(self.claim_counted(caller, word, mask, asked))
    }

    /// As `claim`, with a mask that has `asked` bits, for which there is room in the caller's life: it counts no bits if
    /// all are won.
    #[inline(always)]
    pub fn claim_counted(&self, caller: &mut Caller<R>, word: u32, mask: u64, asked: u32) -> Claim {
        let table = &self.table.shared;
        let found = table.fetch_or(&mut caller.seat, word_spot(word), mask);
        let won = mask & !found;
        let held = caller.held[word as usize] | won;
        caller.held[word as usize] = held;
        caller.won += count_part(won, mask, asked) as u64;
        Claim { won, found }
    }

    /// Claims one place, for which there is room in the caller's life. `Ok`: the place was clear, and the caller now holds
    /// its tag. `Err`: it was taken; returns the word as the claim found it. One step, `fetch_or`.
    #[inline(always)]
    pub fn claim_one(&self, caller: &mut Caller<R>, word: u32, place: u32) -> Result<(), u64> {
        let table = &self.table.shared;
        let bit = 1u64 << place;
        let found = table.fetch_or(&mut caller.seat, word_spot(word), bit);
        if found & bit != 0 {
            return Err(found);
        }
        let held = caller.held[word as usize] | bit;
        caller.held[word as usize] = held;
        caller.won += 1;
        Ok(())
    }
}

/// Returns the number of bits of a part of a mask that has `all` bits. Those of the whole mask are not counted again.
#[inline(always)]
fn count_part(part: u64, mask: u64, all: u32) -> u32 {
    if part == mask {
        all
    } else {
        part.count_ones()
    }
}

impl<R> Caller<R> {
    /// Returns whether the caller may win this many more tags within its life. No step.
    #[inline]
    pub fn room(&self, tags: u32) -> bool {
        tags as u64 <= self.life - self.won
    }
}
