// Made of crates/tag_pool/src/gets/blocking.rt, where the contracts are, by rust/generate.

//! A get that waits as long as it finds no tag: the hand lists itself, tries each tag once more, and sleeps until it is
//! told.

use crate::base::sleep::Wait;
use crate::proved::tag_bell::{Told, Turn};
use crate::proved::tag_core::Waiter;
use crate::proved::tag_pool::fault::TagFault;
use crate::proved::tag_pool::gets::Got;
use crate::proved::tag_pool::hand::Hand;
use crate::proved::tag_pool::kind::Kind;
use crate::proved::tag_pool::pool::Pool;

impl Kind {
    /// Returns the fault of a wait for a tag of this kind if there are no such tags: `NoSuchTag`, or `NoReserved` for a
    /// reserved one.
    #[inline]
    pub fn no_tag(self) -> TagFault {
        match self {
            Kind::Ordinary => TagFault::NoSuchTag,
            Kind::Reserved => TagFault::NoReserved,
        }
    }
}

impl<R: Copy> Pool<R> {
    /// Takes a free ordinary tag like `get`, and waits by the bell as long as it finds none. Once it has a tag it sees to
    /// all others, and wakes the sleepers whom this told. Nothing promises that it returns. `NoSuchTag` means that there are
    /// no ordinary tags, `Spent` that the hand's life in the ordinary set is used up.
    #[inline]
    pub fn get_blocking<W: Wait>(&self, rt: &W, hand: &mut Hand<R>) -> Result<Got<u32>, TagFault> {
        self.block_for(rt, hand, Kind::Ordinary)
    }

    /// Takes a free reserved tag like `get_reserved`, and waits for one as `get_blocking` does for an ordinary tag.
    /// `NoReserved` means that there are no reserved tags, `Spent` that the hand's life in the reserved set is used up.
    #[inline]
    pub fn get_reserved_blocking<W: Wait>(&self, rt: &W, hand: &mut Hand<R>) -> Result<Got<u32>, TagFault> {
        self.block_for(rt, hand, Kind::Reserved)
    }

    /// Takes a free tag of this kind, and waits as long as it finds none.
    #[inline]
    fn block_for<W: Wait>(&self, rt: &W, hand: &mut Hand<R>, kind: Kind) -> Result<Got<u32>, TagFault> {
        self.check_blocking(hand, kind)?;
        let (answer, told) = self.win(rt, hand, kind);
        let woken = self.wake_told(kind, told);
        Ok(Got { answer, woken })
    }

    /// Wins a tag, at once or after it slept for one, and sees to all others.
    #[inline]
    fn win<W: Wait>(&self, rt: &W, hand: &mut Hand<R>, kind: Kind) -> (u32, Told) {
        if let Some(tag) = self.try_get(hand, kind) {
            return (tag, self.see_to_all(hand, kind));
        }
        self.sleep_for_tag(rt, hand, kind)
    }

    /// Sleeps until the hand wins a tag, after a get that found none.
    #[inline]
    fn sleep_for_tag<W: Wait>(&self, rt: &W, hand: &mut Hand<R>, kind: Kind) -> (u32, Told) {
        let mut turn = Turn::Next;
        for _ in rt.forever() {
            match self.try_listed(hand, kind, Waiter::Sleeper, turn) {
                (Some(tag), told) => return (tag, told),
                (None, _) => self.sleep(rt, hand, kind),
            }
            turn = Turn::Same;
        }
        unreachable!()
    }

    /// Returns whether a get of this kind may wait. `NoSuchTag` means that there are no ordinary tags and `NoReserved` that
    /// there are no reserved ones, for which it would wait for ever, `Spent` that the hand's life in the set is used up.
    #[inline]
    pub(super) fn check_blocking(&self, hand: &Hand<R>, kind: Kind) -> Result<(), TagFault> {
        if self.map(kind).layout().depth() == 0 {
            return Err(kind.no_tag());
        }
        if !hand.side(kind).caller.room(1) {
            return Err(TagFault::Spent);
        }
        Ok(())
    }

    /// Makes a get for a hand that may win one more tag of this kind. Whoever calls it sees to the tags that its sweeps left
    /// free.
    #[inline]
    pub(super) fn try_get(&self, hand: &mut Hand<R>, kind: Kind) -> Option<u32> {
        let Ok(found) = self.get_in_quietly(hand, kind) else {
            unreachable!()
        };
        found.answer
    }
}
