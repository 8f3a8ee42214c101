//! A thread that sleeps for a tag, round by round.

use crate::allocator::{Held, Next, Turn, Waiter};
use crate::bell::Stops;
use crate::error::{Error, Result};
use crate::gate::{is_past, Counted};
use crate::hand::Hand;
use crate::options::Kind;
use core::mem::forget;
use core::time::Duration;

/// A hand that is listed while its thread sleeps. A panic of the sleeper drops this, which ends the wait.
struct Listed<'a, T> {
    hand: &'a Hand<T>,
    kind: Kind,
}

impl<T> Drop for Listed<'_, T> {
    fn drop(&mut self) {
        let hand = self.hand;
        let (next, due) = hand.member.wait_on(self.kind, Waiter::Sleeper, true, Turn::Same);
        hand.home.bell.wake(match next {
            Ok(Next::Won(held)) => due.and(hand.give(held)),
            _ => due,
        });
    }
}

impl<T> Hand<T> {
    /// Sleeps until there is a tag. `None` means that the time is up.
    pub(super) fn sleep_until(&self, kind: Kind, end: Option<Duration>) -> Result<Option<Held>> {
        let bell = &self.home.bell;
        let begin = bell.stops();
        let _counted = Counted::new(bell.waiting());
        let (mut is_over, mut turn) = (false, Turn::Next);
        loop {
            let (next, due) = self.member.wait_on(kind, Waiter::Sleeper, is_over, turn);
            bell.wake(due);
            match next? {
                Next::Won(held) => {
                    self.see_to_lists();
                    return Ok(Some(held));
                }
                Next::Over if bell.has_ended(begin) => return Err(Error::Stopped),
                Next::Over => return Ok(None),
                Next::Sleep => turn = Turn::Same,
            }
            is_over = self.rest(kind, begin, end);
        }
    }

    /// Sleeps between two rounds. Returns whether the next one is the last.
    fn rest(&self, kind: Kind, begin: Stops, end: Option<Duration>) -> bool {
        let bell = &self.home.bell;
        let listed = Listed { hand: self, kind };
        let mut is_over = bell.has_ended(begin) || is_past(bell.sleeper, end);
        if !is_over {
            bell.sleep(kind, self.member.number(), end);
            is_over = bell.has_ended(begin);
        }
        forget(listed);
        is_over
    }
}
