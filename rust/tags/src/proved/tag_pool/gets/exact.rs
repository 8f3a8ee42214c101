// Made of crates/tag_pool/src/gets/exact.rt, where the contracts are, by rust/generate.

//! Gets of one given tag: the call that then sees to the tags that its sweeps freed, and the one that tells nobody.

use crate::proved::tag_pool::fault::TagFault;
use crate::proved::tag_pool::gets::Got;
use crate::proved::tag_pool::hand::Hand;
use crate::proved::tag_pool::pool::Pool;
use crate::proved::tag_search::Found;

impl<R: Copy> Pool<R> {
    /// Takes this tag if it is free, and no other, by at most 22 steps. `None` means that it was found taken at some moment of
    /// the call: a hand held it, it was posted, or a sweep of another hand was about to free it. A tag that is set aside
    /// counts as free, and a reserved one is taken like an ordinary one. Then it tells those that wait for
    /// a tag of its kind as `get` does, whatever it answers. The hint stays where it is. `NoSuchTag` means that the number
    /// is not below the total, `Spent` that the hand's life in the tag's set is used up.
    #[inline]
    pub fn get_exactly(&self, hand: &mut Hand<R>, tag: u32) -> Result<Got<Option<u32>>, TagFault> {
        let Found { answer, left } = self.get_exactly_quietly(hand, tag)?;
        let woken = self.look_after(hand, self.kind(tag), left);
        Ok(Got { answer, woken })
    }

    /// Like `get_exactly`, but tells nobody (see `get_quietly`). It is refused as `get_exactly` is: `NoSuchTag`, `Spent`.
    #[inline]
    pub fn get_exactly_quietly(&self, hand: &mut Hand<R>, tag: u32) -> Result<Found<u32>, TagFault> {
        self.find(tag)?;
        if tag < self.reserved_count {
            let Ok(found) = hand.reserved.get_exactly(&self.reserved, tag) else {
                return Err(TagFault::Spent);
            };
            return Ok(found);
        }
        let number = tag - self.reserved_count;
        let Ok(Found { answer, left }) = hand.ordinary.get_exactly(&self.ordinary, number) else {
            return Err(TagFault::Spent);
        };
        let answer = self.ordinary_tag(answer);
        Ok(Found { answer, left })
    }
}
