// Made of crates/tag_pool/src/gets/many.rt, where the contracts are, by rust/generate.

//! Gets of several tags in one call, which takes all of them or none: the call that then sees to the tags that it left
//! free, and the one that tells nobody.

use crate::proved::tag_pool::fault::TagFault;
use crate::proved::tag_pool::gets::Got;
use crate::proved::tag_pool::hand::Hand;
use crate::proved::tag_pool::kind::Kind;
use crate::proved::tag_pool::pool::Pool;

impl<R: Copy> Pool<R> {
    /// Takes as many free ordinary tags as the slice has places, by one get for each, and writes them there, or takes none:
    /// `false` means that one of these gets found no tag, so the hand gave back what it had won in the call, and what the
    /// slice has means nothing. An empty slice gets `true` without a step. Whatever it answers, it then tells up to as many
    /// of those that wait as its gets left tags free and it gave tags back, and wakes the sleepers among them. `BadCount`
    /// means that there are fewer ordinary tags than places, `Spent` that the life does not suffice for so many more tags;
    /// nothing changes then.
    #[inline]
    pub fn get_many(&self, hand: &mut Hand<R>, tags: &mut [u32]) -> Result<Got<bool>, TagFault> {
        let (answer, left) = self.get_many_quietly(hand, tags)?;
        let woken = self.look_after(hand, Kind::Ordinary, left);
        Ok(Got { answer, woken })
    }

    /// Like `get_many`, but tells nobody: after its answer it returns the sum of how many ordinary tags each of its gets left
    /// free, and of those that it gave back. The caller sees to so many (`see_to`, `wake`). It is refused as `get_many` is:
    /// `BadCount`, `Spent`.
    #[inline]
    pub fn get_many_quietly(&self, hand: &mut Hand<R>, tags: &mut [u32]) -> Result<(bool, u64), TagFault> {
        self.check_many(hand, tags.len())?;
        Ok(self.win_many(hand, tags))
    }

    /// Returns `Ok` if `get_many` would take so many tags or none, and otherwise its refusal. This makes no step.
    #[inline]
    fn check_many(&self, hand: &Hand<R>, n: usize) -> Result<(), TagFault> {
        if n > self.ordinary.layout().depth() as usize {
            return Err(TagFault::BadCount);
        }
        if !hand.ordinary.caller.room(n as u32) {
            return Err(TagFault::Spent);
        }
        Ok(())
    }

    /// Wins a tag for each place of the slice, or none. Returns whether it won them, and how many tags to see to.
    #[inline]
    fn win_many(&self, hand: &mut Hand<R>, tags: &mut [u32]) -> (bool, u64) {
        let mut left = 0u64;
        for i in 0..tags.len() {
            let Ok(found) = self.get_quietly(hand) else {
                unreachable!()
            };
            left = left.saturating_add(found.left);
            let Some(tag) = found.answer else {
                self.free_all(hand, &tags[..i]);
                return (false, left.saturating_add(i as u64));
            };
            tags[i] = tag;
        }
        (true, left)
    }

    /// Frees ordinary tags that the hand holds, however many there are.
    #[inline]
    fn free_all(&self, hand: &mut Hand<R>, tags: &[u32]) {
        if !tags.is_empty() {
            hand.ordinary.give_list(&self.ordinary, self.reserved_count, tags);
        }
    }
}
