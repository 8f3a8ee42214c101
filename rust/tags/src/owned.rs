//! Tags that keep their hand alive. They go back on any thread, so a call on one takes the hand's lock, which nobody holds
//! while it sleeps.

use crate::allocator::{Due, Held};
use crate::error::Result;
use crate::shared::{Loan, SharedHand};
use core::fmt;
use core::marker::PhantomData;

/// A tag of a [`SharedHand`], which it keeps alive. Dropping it gives the tag back, on whichever thread that happens.
///
/// ```
/// fn send<T: Send + Sync + 'static>() {}
/// send::<tags::OwnedTag>();
/// ```
///
/// ```compile_fail
/// fn share<T: Sync>() {}
/// share::<tags::OwnedTag<std::cell::Cell<u8>>>();
/// ```
#[must_use = "the tag goes back at once"]
pub struct OwnedTag<T = ()> {
    hand: Loan<T>,
    held: Held,
    /// Whether the tag was posted or let go, so that a drop does not give it back.
    is_gone: bool,
    /// `value` lends the value, so the tag is `Sync` only if the value is.
    value: PhantomData<T>,
}

impl<T> OwnedTag<T> {
    #[inline]
    pub(crate) fn new(hand: Loan<T>, held: Held) -> OwnedTag<T> {
        OwnedTag {
            hand,
            held,
            is_gone: false,
            value: PhantomData,
        }
    }

    /// Returns the number of the tag, below the pool's total.
    #[inline]
    #[must_use]
    pub fn number(&self) -> u32 {
        self.held.number()
    }

    /// Returns the hand that holds the tag.
    #[must_use]
    pub fn hand(&self) -> &SharedHand<T> {
        &self.hand
    }

    /// Returns the value of the tag's slot, which is unspecified until it is written.
    #[must_use]
    pub fn read(&self) -> u64 {
        self.hand.look(|hand| hand.read(&self.held))
    }

    /// Writes the tag's slot, and returns the former value.
    pub fn write(&self, value: u64) -> u64 {
        self.hand.look(|hand| hand.write(&self.held, value))
    }

    /// Publishes the tag's note, as [`Tag::note`](crate::Tag::note) does.
    pub fn note(&self, value: u64) -> Result<()> {
        let hand = self.hand.lock();
        hand.member.note(self.number(), hand.note_of(value))
    }

    /// Returns the value beside the tag.
    #[inline]
    #[must_use]
    pub fn value(&self) -> &T {
        self.hand.set().value(&self.held)
    }

    /// Returns the value beside the tag, to be changed.
    #[inline]
    #[must_use]
    pub fn value_mut(&mut self) -> &mut T {
        self.hand.set().value_mut(&mut self.held)
    }

    /// Lets go of the guard without giving the tag back, as [`Tag::into_number`](crate::Tag::into_number) does. Keep a
    /// clone of the [`SharedHand`] to [claim](SharedHand::claim) the tag again: the hand leaves its pool with its last
    /// clone.
    #[must_use = "the hand keeps the tag until it claims this number"]
    pub fn into_number(mut self) -> u32 {
        self.is_gone = true;
        let held = self.held.pass();
        self.hand.end_with(|hand| (hand.member.let_go(held), Due::NOBODY))
    }

    /// Offers the tag, with its slot and its value, to all hands of the pool, and returns its number: the first hand
    /// that [takes](crate::Hand::take) it gets it.
    #[must_use = "the tag stays posted until a hand takes this number"]
    pub fn post(mut self) -> u32 {
        self.is_gone = true;
        let held = self.held.pass();
        self.hand.end_with(|hand| hand.after_giving(hand.member.post(held)))
    }
}

impl<T> Drop for OwnedTag<T> {
    #[inline]
    fn drop(&mut self) {
        if !self.is_gone {
            self.hand.give_and_wake(self.held.pass());
        }
    }
}

impl<T> fmt::Debug for OwnedTag<T> {
    fn fmt(&self, f: &mut fmt::Formatter<'_>) -> fmt::Result {
        let mut shown = f.debug_struct("OwnedTag");
        shown.field("number", &self.number()).finish_non_exhaustive()
    }
}
