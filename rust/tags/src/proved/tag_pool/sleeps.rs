// Made of crates/tag_pool/src/sleeps.rt, where the contracts are, by rust/generate.

//! Sleeps by the bell for a tag of a set, and who wakes the sleepers: a hand sleeps until it is told, and whoever tells
//! hands wakes the sleepers among them.

use crate::base::sleep::Wait;
use crate::proved::tag_bell::{Told, Woken};
use crate::proved::tag_pool::fault::TagFault;
use crate::proved::tag_pool::hand::Hand;
use crate::proved::tag_pool::kind::Kind;
use crate::proved::tag_pool::pool::Pool;

impl<R: Copy> Pool<R> {
    /// Sleeps until the hand finds itself told. It may sleep only if it is listed as a sleeper, has tried each tag of this
    /// kind in vain since, and has nothing to see to, as after a get that found none. It looks at its berth before each time
    /// that it sleeps, and once more after the last.
    #[inline]
    pub fn sleep<W: Wait>(&self, rt: &W, hand: &mut Hand<R>, kind: Kind) {
        crate::proved::tag_bell::sleep(rt, self.map(kind), &mut hand.side_mut(kind).caller);
    }

    /// Wakes the sleepers among those that a call told. It makes no step.
    #[inline]
    pub fn wake_told(&self, kind: Kind, told: Told) -> Woken {
        crate::proved::tag_bell::wake(self.map(kind), told)
    }

    /// Sees to all that the hand has to see to, after other calls made `freed` tags of this kind free: tells others as
    /// `see_to` does, and wakes the sleepers among them. Returns whom it told.
    #[inline]
    pub fn wake(&self, hand: &mut Hand<R>, kind: Kind, freed: u32) -> Woken {
        let told = self.see_to(hand, kind, freed);
        self.wake_told(kind, told)
    }

    /// Sees to all tags of this kind, as `see_to_all` does, after the hand was told and got up, and won another tag or gave
    /// up, and wakes the sleepers whom this told.
    #[inline]
    pub fn wake_next(&self, hand: &mut Hand<R>, kind: Kind) -> Woken {
        let told = self.see_to_all(hand, kind);
        self.wake_told(kind, told)
    }

    /// Clears a held tag. Then it sees to this one tag of its kind as `wake` does: if anybody waits, it tells a sleeper and a
    /// listener, and wakes the sleeper. Returns whom it told. It is refused as `clear_quietly` is: `NoSuchTag`, `NotHeld`;
    /// nothing changes then.
    #[inline]
    pub fn clear(&self, hand: &mut Hand<R>, tag: u32) -> Result<Woken, TagFault> {
        let kind = self.clear_quietly(hand, tag)?;
        Ok(self.wake(hand, kind, 1))
    }
}
