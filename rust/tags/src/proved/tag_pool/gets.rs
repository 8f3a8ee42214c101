// Made of crates/tag_pool/src/gets.rt, where the contracts are, by rust/generate.

//! Gets: the calls that take tags, and then see to those that their sweeps freed and they did not take.

use crate::proved::tag_bell::Woken;
use crate::proved::tag_pool::fault::TagFault;
use crate::proved::tag_pool::hand::Hand;
use crate::proved::tag_pool::kind::Kind;
use crate::proved::tag_pool::pool::Pool;
use crate::proved::tag_search::Found;

mod blocking;
mod exact;
mod many;
mod quietly;
pub(crate) mod rounds;

/// What a get answers that also sees to the tags that its sweeps freed and it did not take.
pub struct Got<A> {
    /// What it won.
    pub answer: A,
    /// Who was told of the tags that it left free, which happens whether or not it won one itself.
    pub woken: Woken,
}

impl<R: Copy> Pool<R> {
    /// Takes a free ordinary tag, which this hand alone holds until it clears or posts the tag. `None` means that each tag
    /// that the search looked at was found taken at some moment of the call, not that all were taken at the same moment.
    /// Then, whatever it answers, it tells up to as many of those that wait as its sweeps left tags free, and wakes the
    /// sleepers among them. `Spent` means that the hand's life in the ordinary set is used up.
    #[inline(always)]
    pub fn get(&self, hand: &mut Hand<R>) -> Result<Got<Option<u32>>, TagFault> {
        let Found { answer, left } = self.get_quietly(hand)?;
        let woken = self.look_after(hand, Kind::Ordinary, left);
        Ok(Got { answer, woken })
    }

    /// Like `get`, but limited to `depth` of the ordinary tags, which are shared out among the words in proportion. A
    /// word's share may be 0. `TooShallow` means that `depth` is 0 or below the minimum shallow depth. `Spent` is that
    /// of `get`.
    #[inline]
    pub fn get_shallow(&self, hand: &mut Hand<R>, depth: u32) -> Result<Got<Option<u32>>, TagFault> {
        let Found { answer, left } = self.get_shallow_quietly(hand, depth)?;
        let woken = self.look_after(hand, Kind::Ordinary, left);
        Ok(Got { answer, woken })
    }

    /// Takes up to `n` free ordinary tags out of `n` consecutive ones of one word, where `n` is 1 to the bits of a
    /// word. Returns the first of them and the mask of those won, in which bit 0 is that first tag, and tells those that
    /// wait as `get` does. Under round robin it returns `None` and makes no step, as in the kernel (lib/sbitmap.c).
    /// `BadCount` means an `n` out of that range, `Spent` that the life does not suffice for `n` more tags.
    #[inline]
    pub fn get_batch(&self, hand: &mut Hand<R>, n: u32) -> Result<Got<Option<(u32, u64)>>, TagFault> {
        let Found { answer, left } = self.get_batch_quietly(hand, n)?;
        let woken = self.look_after(hand, Kind::Ordinary, left);
        Ok(Got { answer, woken })
    }

    /// Takes a free reserved tag as `get` takes an ordinary one, and then tells those that wait for a reserved tag.
    /// `NoReserved` means that there are none. `Spent` means that the hand's life in the reserved set is used up.
    #[inline]
    pub fn get_reserved(&self, hand: &mut Hand<R>) -> Result<Got<Option<u32>>, TagFault> {
        let Found { answer, left } = self.get_reserved_quietly(hand)?;
        let woken = self.look_after(hand, Kind::Reserved, left);
        Ok(Got { answer, woken })
    }

    /// Sees to the tags of a kind that a get left free, if it left any: somebody may have looked for a tag before these were
    /// free, and sleep.
    #[inline(always)]
    fn look_after(&self, hand: &mut Hand<R>, kind: Kind, left: u64) -> Woken {
        if left == 0 {
            return Woken::none();
        }
        self.look_after_some(hand, kind, left)
    }

    /// The same where some were left. It is out of line, so that a get is short where none was.
    #[cold]
    #[inline]
    fn look_after_some(&self, hand: &mut Hand<R>, kind: Kind, left: u64) -> Woken {
        // No more than 64 hands wait.
        self.wake(hand, kind, left.min(64) as u32)
    }
}
