// Made of crates/tag_pool/src/gets/rounds.rt, where the contracts are, by rust/generate.

//! A wait for a tag of a set by the bell, round by round. Whoever calls sleeps between two rounds as it likes, and may end
//! the wait: a limit, a stop and a cancel each only end a sleep, and a sleep that ends for no reason is one round more.

use crate::proved::tag_bell::{Told, Turn};
use crate::proved::tag_core::Waiter;
use crate::proved::tag_pool::fault::TagFault;
use crate::proved::tag_pool::hand::Hand;
use crate::proved::tag_pool::kind::Kind;
use crate::proved::tag_pool::pool::Pool;
use crate::proved::tag_search::Hint;

/// What a hand that waits does next.
#[derive(Clone, Copy, Debug, PartialEq, Eq)]
pub enum Next {
    /// It has this tag, and waits no more.
    Won(u32),
    /// It waits no more, and has no tag.
    Over,
    /// It sleeps until it is told, or its wait is to end.
    Sleep,
}

/// How a hand sleeps between two rounds of its wait.
pub trait Sleeper<R> {
    /// Sleeps until the hand may have been told or its wait is to end: it may return at any time. Returns whether the wait
    /// is to end. The hand waits for a tag of this kind, and may sleep: it is listed, has tried each tag in vain since, and
    /// has nothing to see to.
    fn sleep(&mut self, pool: &Pool<R>, hand: &Hand<R>, kind: Kind) -> bool;
}

impl<R> Hand<R> {
    /// Returns whether the hand can wait for a tag of this kind (`wait_on`): it may win one more, and its next get tries each,
    /// as each get does that is not round robin, and each that follows one that found none. This makes no step.
    #[inline]
    pub fn can_wait(&self, kind: Kind) -> bool {
        let side = self.side(kind);
        let Hint { at, round_robin } = side.hint;
        side.caller.room(1) && (!round_robin || at == 0)
    }
}

impl<R: Copy> Pool<R> {
    /// Takes a free ordinary tag like `get`, and as long as it finds none waits by the bell, until the sleeper ends the
    /// wait: it gives up for no other reason before 2^64 - 1 sleeps. Returns the tag, and whom it told, who are to be woken:
    /// with a tag or without one it sees to all tags first.
    /// `NoSuchTag` means that there are no ordinary tags, `Spent` that the hand's life in the ordinary set is used up.
    #[inline]
    pub fn get_until<S: Sleeper<R>>(
        &self,
        sleeper: &mut S,
        hand: &mut Hand<R>,
    ) -> Result<(Option<u32>, Told), TagFault> {
        self.wait_for(sleeper, hand, Kind::Ordinary)
    }

    /// Takes a free reserved tag like `get_reserved`, and waits for one as `get_until` does for an ordinary tag.
    /// `NoReserved` means that there are no reserved tags, `Spent` that the hand's life in the reserved set is used up.
    #[inline]
    pub fn get_reserved_until<S: Sleeper<R>>(
        &self,
        sleeper: &mut S,
        hand: &mut Hand<R>,
    ) -> Result<(Option<u32>, Told), TagFault> {
        self.wait_for(sleeper, hand, Kind::Reserved)
    }

    /// Takes a free tag of this kind, and as long as it finds none waits until the sleeper ends the wait.
    #[inline]
    fn wait_for<S: Sleeper<R>>(
        &self,
        sleeper: &mut S,
        hand: &mut Hand<R>,
        kind: Kind,
    ) -> Result<(Option<u32>, Told), TagFault> {
        self.check_blocking(hand, kind)?;
        if let Some(tag) = self.try_get(hand, kind) {
            return Ok((Some(tag), self.see_to_all(hand, kind)));
        }
        Ok(self.sleep_until(sleeper, hand, kind))
    }

    /// Sleeps until the hand wins a tag or the sleeper ends the wait, after a get that found none.
    #[inline]
    fn sleep_until<S: Sleeper<R>>(&self, sleeper: &mut S, hand: &mut Hand<R>, kind: Kind) -> (Option<u32>, Told) {
        let mut is_over = false;
        let mut turn = Turn::Next;
        for _ in 0..u64::MAX {
            match self.wait_on(hand, kind, Waiter::Sleeper, is_over, turn) {
                (Next::Won(tag), told) => return (Some(tag), told),
                (Next::Over, told) => return (None, told),
                (Next::Sleep, _) => {}
            }
            is_over = sleeper.sleep(self, hand, kind);
            turn = Turn::Same;
        }
        (None, self.give_up(hand, kind))
    }

    /// One round of a wait for a tag of this kind: lists the hand as this waiter and tries each tag, or ends the wait. If it
    /// answers `Sleep`, the hand may sleep, and can wait again. Otherwise it waits no more and has nothing to see to, and
    /// those told are to be woken.
    #[inline]
    pub fn wait_on(&self, hand: &mut Hand<R>, kind: Kind, waiter: Waiter, is_over: bool, turn: Turn) -> (Next, Told) {
        if is_over {
            return (Next::Over, self.give_up(hand, kind));
        }
        match self.try_listed(hand, kind, waiter, turn) {
            (Some(tag), told) => (Next::Won(tag), told),
            (None, told) => (Next::Sleep, told),
        }
    }

    /// Lists the hand and tries each tag. If it wins one it ends the wait, and otherwise it may sleep.
    #[inline]
    pub(super) fn try_listed(&self, hand: &mut Hand<R>, kind: Kind, waiter: Waiter, turn: Turn) -> (Option<u32>, Told) {
        self.list_self(hand, kind, waiter, turn);
        let Some(tag) = self.try_get(hand, kind) else {
            return (None, Told::none());
        };
        (Some(tag), self.give_up(hand, kind))
    }

    /// Ends a wait: gets up, and then sees to all tags.
    #[inline]
    fn give_up(&self, hand: &mut Hand<R>, kind: Kind) -> Told {
        self.get_up(hand, kind);
        self.see_to_all(hand, kind)
    }
}
