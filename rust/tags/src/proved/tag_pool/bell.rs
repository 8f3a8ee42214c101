// Made of crates/tag_pool/src/bell.rt, where the contracts are, by rust/generate.

//! Waits for a tag of a set by the bell: a hand lists itself, learns that it was told, and gets up; and whoever makes tags
//! of the set free sees to them. In each set a hand has a berth of its own, so the laws of `tag_bell` say of each what
//! follows for all hands together: nobody sleeps beside a free tag unless somebody is on the way to it. A hand may wait in
//! one set while it uses the other.

use crate::proved::tag_bell::{Told, Turn};
use crate::proved::tag_core::Waiter;
use crate::proved::tag_pool::hand::Hand;
use crate::proved::tag_pool::kind::Kind;
use crate::proved::tag_pool::pool::Pool;

impl<R: Copy> Pool<R> {
    /// Lists the hand among those that wait for a tag of this kind, as this waiter. Afterwards it has to try each tag, by a get
    /// that finds none, before it may sleep. Four steps at most.
    #[inline]
    pub fn list_self(&self, hand: &mut Hand<R>, kind: Kind, waiter: Waiter, turn: Turn) {
        crate::proved::tag_bell::list_self(self.map(kind), &mut hand.side_mut(kind).caller, waiter, turn);
    }

    /// Ends the hand's wait, and returns whether somebody had told it. One that was told has to see to each tag
    /// (`see_to_all`), unless its next get finds none. Two steps.
    #[inline]
    pub fn get_up(&self, hand: &mut Hand<R>, kind: Kind) -> bool {
        crate::proved::tag_bell::get_up(self.map(kind), &mut hand.side_mut(kind).caller)
    }

    /// Looks whether the hand was told: returns whether it does not find itself listed, so also if it does not wait. One that
    /// was told gets up. One step.
    #[inline]
    pub fn is_told(&self, hand: &mut Hand<R>, kind: Kind) -> bool {
        crate::proved::tag_bell::is_told(self.map(kind), &mut hand.side_mut(kind).caller)
    }

    /// Returns whether it finds a hand that waits, by one look. If it finds none, this hand has nothing to see to.
    #[inline]
    pub fn finds_waiters(&self, hand: &mut Hand<R>, kind: Kind) -> bool {
        crate::proved::tag_bell::finds_waiters(self.map(kind), &mut hand.side_mut(kind).caller)
    }

    /// Sees to all that the hand has to see to, after it made `freed` tags of this kind free: where somebody waits, it tells
    /// up to `freed` sleepers and as many listeners, and one of each at least, in the order of their turns; but no more
    /// sleepers than make, with those that were told and are not up yet, as many as the set has tags. Returns those told, who
    /// are to be woken. Where nobody waits it makes one load, and otherwise at most 193 steps.
    #[inline]
    pub fn see_to(&self, hand: &mut Hand<R>, kind: Kind, freed: u32) -> Told {
        crate::proved::tag_bell::see_to(self.map(kind), &mut hand.side_mut(kind).caller, freed)
    }

    /// Sees to all that the hand has to see to, after it was told and got up, and won another tag or gave up. Where
    /// somebody waits it looks through the words of the set, and if it sees a free tag it tells one sleeper and one
    /// listener. Returns those told, who are to be woken.
    #[inline]
    pub fn see_to_all(&self, hand: &mut Hand<R>, kind: Kind) -> Told {
        crate::proved::tag_bell::settle(self.map(kind), &mut hand.side_mut(kind).caller)
    }
}
