// Made of crates/tag_pool/src/clears/masks.rt, where the contracts are, by rust/generate.

//! Clears of the ordinary tags of a mask, as a batch get answers it.

use crate::proved::tag_bell::Woken;
use crate::proved::tag_core::Map;
use crate::proved::tag_pool::fault::TagFault;
use crate::proved::tag_pool::hand::Hand;
use crate::proved::tag_pool::kind::Kind;
use crate::proved::tag_pool::pool::Pool;
use crate::proved::tag_pool::side::Side;
use crate::proved::tag_search::after_clear;
use words::{are_held, give_mask};

mod words;

impl<R: Copy> Pool<R> {
    /// Clears the held ordinary tags of a mask, in which bit `i` is tag `first + i` as in the answer of `get_batch`, then
    /// tells as many of those that wait, and wakes the sleepers among them. Returns whom it told. The effect is that of
    /// `clear_batch` on these tags in order, by one step for each word that has any of them. `BadCount` means that the
    /// mask is empty; `NoSuchTag` that a number is not below the total or its tag is reserved; `NotHeld` that the hand does
    /// not hold a tag. Nothing changes on an error.
    #[inline]
    pub fn clear_mask(&self, hand: &mut Hand<R>, first: u32, mask: u64) -> Result<Woken, TagFault> {
        self.clear_mask_quietly(hand, first, mask)?;
        Ok(self.wake(hand, Kind::Ordinary, mask.count_ones()))
    }

    /// Clears the tags as `clear_mask` does, but tells nobody: the caller has to see to them. It is refused as `clear_mask`
    /// is: `BadCount`, `NoSuchTag`, `NotHeld`.
    #[inline]
    pub fn clear_mask_quietly(&self, hand: &mut Hand<R>, first: u32, mask: u64) -> Result<(), TagFault> {
        self.check_mask(hand, first, mask)?;
        self.clear_mask_held_quietly(hand, first, mask);
        Ok(())
    }

    /// Clears the ordinary tags of a mask, each of which the hand holds, like `clear_mask_quietly` but for the checks.
    #[inline]
    pub fn clear_mask_held_quietly(&self, hand: &mut Hand<R>, first: u32, mask: u64) {
        let Some((first, mask)) = ordinary_mask(first, mask, self.reserved_count) else {
            unreachable!()
        };
        hand.ordinary.give_mask(&self.ordinary, first, mask);
    }

    /// Returns `Ok` if `clear_mask` would clear this mask, and otherwise its refusal. This makes no step. The refusals,
    /// in order: `BadCount`, `NoSuchTag`, `NotHeld`.
    #[inline]
    pub fn check_mask(&self, hand: &Hand<R>, first: u32, mask: u64) -> Result<(), TagFault> {
        if mask == 0 {
            return Err(TagFault::BadCount);
        }
        let Some((first, mask)) = ordinary_mask(first, mask, self.reserved_count) else {
            return Err(TagFault::NoSuchTag);
        };
        let depth = self.ordinary.layout().depth();
        if first >= depth {
            return Err(TagFault::NoSuchTag);
        }
        let last = first + mask.ilog2();
        if last >= depth {
            return Err(TagFault::NoSuchTag);
        }
        if !are_held(&self.ordinary, &hand.ordinary.caller, first, mask, last) {
            return Err(TagFault::NotHeld);
        }
        Ok(())
    }
}

impl<R> Side<R> {
    /// Frees the held tags of a mask, in which bit `i` is the set's tag `first + i`, by one step for each word that has any
    /// of them, and moves the hint to the last of them, unless it is round robin.
    #[inline]
    fn give_mask(&mut self, map: &Map<R>, first: u32, mask: u64) {
        let last = first + mask.ilog2();
        give_mask(map, &mut self.caller, first, mask, last);
        after_clear(&mut self.hint, last);
    }
}

/// Returns the first number and the mask of the same tags in the ordinary set, or `None` if one of them is reserved.
#[inline]
fn ordinary_mask(first: u32, mask: u64, reserved: u32) -> Option<(u32, u64)> {
    if first >= reserved {
        return Some((first - reserved, mask));
    }
    let under = reserved - first;
    if mask.trailing_zeros() < under {
        return None;
    }
    Some((0, mask >> under))
}
