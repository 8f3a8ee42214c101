// Made of crates/tag_pool/src/gets/quietly.rt, where the contracts are, by rust/generate.

//! Gets that tell nobody: each tells how many tags of its set its sweeps freed and it did not take, and whoever calls it
//! sees to those tags, whatever it answered.

use crate::proved::tag_core::Spent;
use crate::proved::tag_pool::fault::TagFault;
use crate::proved::tag_pool::hand::Hand;
use crate::proved::tag_pool::kind::Kind;
use crate::proved::tag_pool::pool::Pool;
use crate::proved::tag_search::{on_map, Found, Unfinished};

impl<R: Copy> Pool<R> {
    /// Like `get`, but tells nobody: `left` is the number of ordinary tags that its sweeps freed and it did not take, 0 for
    /// none. Whatever it answers, the caller sees to so many (`see_to`, `wake`), or knows that nobody waits.
    #[inline(always)]
    pub fn get_quietly(&self, hand: &mut Hand<R>) -> Result<Found<u32>, TagFault> {
        let Ok(found) = self.get_in_quietly(hand, Kind::Ordinary) else {
            return Err(TagFault::Spent);
        };
        Ok(found)
    }

    /// Like `get_reserved`, but tells nobody (see `get_quietly`): `left` counts reserved tags. It is refused as `get_reserved`
    /// is: `NoReserved`, `Spent`.
    #[inline]
    pub fn get_reserved_quietly(&self, hand: &mut Hand<R>) -> Result<Found<u32>, TagFault> {
        if self.reserved_count == 0 {
            return Err(TagFault::NoReserved);
        }
        let Ok(found) = self.get_in_quietly(hand, Kind::Reserved) else {
            return Err(TagFault::Spent);
        };
        Ok(found)
    }

    /// Takes a free tag of this kind, and tells nobody (see `get_quietly`): `left` counts tags of this kind. `Spent` means
    /// that the hand's life in the set is used up; nothing changes then.
    #[inline(always)]
    pub fn get_in_quietly(&self, hand: &mut Hand<R>, kind: Kind) -> Result<Found<u32>, Spent> {
        let Found { answer, left } = hand.side_mut(kind).get(self.map(kind))?;
        let answer = self.tag_in(kind, answer);
        Ok(Found { answer, left })
    }

    /// Returns the tag of this kind with this number in its set, if there is one. The number is one of the set.
    #[inline(always)]
    fn tag_in(&self, kind: Kind, number: Option<u32>) -> Option<u32> {
        match kind {
            Kind::Ordinary => self.ordinary_tag(number),
            Kind::Reserved => number,
        }
    }

    /// Begins a get as `get_quietly` makes it: its first try is the whole of most gets, and left no tag free if it won one.
    /// `finish_get` does what is left. `NotBegun` means that no try was made: there is no room for a tag, the hint is not
    /// below the depth, or gets are round robin; nothing has changed then, and `get_quietly` does it all.
    #[inline(always)]
    pub fn begin_get(&self, hand: &mut Hand<R>) -> Result<u32, Unfinished> {
        let side = &mut hand.ordinary;
        if !side.caller.room(1) {
            return Err(Unfinished::NotBegun);
        }
        match on_map::begin(&self.ordinary, &mut side.caller, &mut side.hint) {
            Ok(number) => Ok(hand.reserved_count + number),
            Err(rest) => Err(rest),
        }
    }

    /// Finishes a get whose first try won nothing. The two are together one call of `get_quietly`.
    #[inline(always)]
    pub fn finish_get(&self, hand: &mut Hand<R>, rest: Unfinished) -> Found<u32> {
        let side = &mut hand.ordinary;
        let Found { answer, left } = on_map::finish(&self.ordinary, &mut side.caller, &mut side.hint, rest);
        let answer = self.ordinary_tag(answer);
        Found { answer, left }
    }

    /// Like `get_shallow`, but tells nobody (see `get_quietly`). It is refused as `get_shallow` is: `TooShallow`, `Spent`.
    #[inline]
    pub fn get_shallow_quietly(&self, hand: &mut Hand<R>, depth: u32) -> Result<Found<u32>, TagFault> {
        if depth < self.shallowest {
            return Err(TagFault::TooShallow);
        }
        let Ok(Found { answer, left }) = hand.ordinary.get_shallow(&self.ordinary, depth) else {
            return Err(TagFault::Spent);
        };
        let answer = self.ordinary_tag(answer);
        Ok(Found { answer, left })
    }

    /// Like `get_batch`, but tells nobody (see `get_quietly`). It is refused as `get_batch` is: `BadCount`, `Spent`.
    #[inline]
    pub fn get_batch_quietly(&self, hand: &mut Hand<R>, n: u32) -> Result<Found<(u32, u64)>, TagFault> {
        let bits = 1u32 << self.ordinary.layout().shift();
        if n == 0 || n > bits {
            return Err(TagFault::BadCount);
        }
        let Ok(Found { answer, left }) = hand.ordinary.get_batch(&self.ordinary, n) else {
            return Err(TagFault::Spent);
        };
        let answer = self.ordinary_run(answer);
        Ok(Found { answer, left })
    }

    /// Returns the ordinary tag with this number in its set, if there is one. The number is one of the set.
    #[inline(always)]
    pub(crate) fn ordinary_tag(&self, number: Option<u32>) -> Option<u32> {
        let Some(number) = number else {
            return None;
        };
        Some(self.reserved_count + number)
    }

    /// Returns a run of the ordinary set with the tag of its first number, if there is one.
    #[inline(always)]
    fn ordinary_run(&self, run: Option<(u32, u64)>) -> Option<(u32, u64)> {
        let Some((first, won)) = run else {
            return None;
        };
        Some((self.reserved_count + first, won))
    }
}
