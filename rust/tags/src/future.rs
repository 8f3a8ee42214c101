//! Waits that block no thread.

use crate::allocator::{Due, Held, Next};
use crate::bell::Bell;
use crate::error::{Error, Result};
use crate::hand::Hand;
use crate::options::Kind;
use crate::owned::OwnedTag;
use crate::queue::{wake_all, Queue, Queued, State};
use crate::shared::SharedHand;
use crate::shared_hands::SharedHands;
use crate::tag::Tag;
use alloc::vec::Vec;
use core::fmt;
use core::future::Future;
use core::pin::Pin;
use core::task::{Context, Poll, Waker};

/// Lends a hand to a future, for one call at a time, and then wakes those whom the call told.
pub(crate) trait Lends {
    type Value;

    fn lend<R>(&self, call: impl FnOnce(&Hand<Self::Value>) -> (R, Due)) -> R;

    fn bell(&self) -> &Bell;

    /// The futures that wait behind the hand for a tag of this kind.
    fn queue(&self, kind: Kind) -> &Queue;
}

impl<T> Lends for &Hand<T> {
    type Value = T;

    fn lend<R>(&self, call: impl FnOnce(&Hand<T>) -> (R, Due)) -> R {
        let (answer, due) = call(self);
        self.home.bell.wake(due);
        answer
    }

    fn bell(&self) -> &Bell {
        &self.home.bell
    }

    fn queue(&self, kind: Kind) -> &Queue {
        self.home.bell.queue(kind, self.member.number())
    }
}

/// A future's wait for a tag of this kind, in a queue of its hand.
struct Waiting<L: Lends> {
    lender: L,
    kind: Kind,
    /// The future's number in the queue while it is there.
    number: Option<u64>,
}

impl<L: Lends> Waiting<L> {
    fn new(lender: L, kind: Kind) -> Waiting<L> {
        Waiting {
            lender,
            kind,
            number: None,
        }
    }

    fn queue(&self) -> &Queue {
        self.lender.queue(self.kind)
    }

    fn poll(&mut self, waker: &Waker) -> Poll<Result<Held>> {
        let answer = match self.number {
            Some(number) => {
                drop(self.queue().renew(number, waker.clone()));
                self.look(number)
            }
            None => match self.find()? {
                Some(held) => return Poll::Ready(Ok(held)),
                None => self.join(waker.clone()),
            },
        };
        answer.map_or(Poll::Pending, |answer| self.finish(answer))
    }

    /// Tries before it waits.
    fn find(&self) -> Result<Option<Held>> {
        if self.lender.bell().is_stopped() {
            return Err(Error::Stopped);
        }
        self.lender.lend(|hand| hand.after_get(hand.member.get_in(self.kind)))
    }

    /// Begins to wait. The first one lists the hand, also for those that join meanwhile.
    fn join(&mut self, waker: Waker) -> Option<Result<Held>> {
        let (number, is_first) = self.queue().join(self.lender.bell(), waker);
        self.number = Some(number);
        if is_first {
            self.try_for_all(Some(number))
        } else {
            self.look(number)
        }
    }

    /// Returns what this future gets, if it gets anything, after a try if the hand was told of a tag.
    fn look(&self, number: u64) -> Option<Result<Held>> {
        match self.queue().look(number) {
            State::Answered(answer) => Some(answer),
            State::Told => self.try_for_all(Some(number)),
            State::Waiting => None,
        }
    }

    fn finish(&mut self, answer: Result<Held>) -> Poll<Result<Held>> {
        self.number = None;
        // A stop answers futures without their hand.
        if matches!(answer, Err(Error::Stopped)) && self.queue().is_empty() {
            self.try_for_all(None);
        }
        Poll::Ready(answer)
    }

    /// The hand tries for those that wait, one after another, until it finds no tag: then it is listed, and has tried
    /// once more. If none waits any longer, it is not listed. Returns what it got for the future that makes this call,
    /// and wakes the others that got something.
    fn try_for_all(&self, own: Option<u64>) -> Option<Result<Held>> {
        let mut woken = Vec::new();
        let own = self
            .lender
            .lend(|hand| hand.try_for_futures(self.kind, own, &mut woken));
        wake_all(woken);
        // The future's waker is dropped here, without the hand's lock.
        own.map(|(answer, _)| answer)
    }

    /// Ends the wait of a future that is dropped.
    fn end(&mut self) {
        let Some(number) = self.number.take() else {
            return;
        };
        let left = self.queue().leave(self.lender.bell(), number);
        if let Some(held) = left.tag {
            self.lender.lend(|hand| ((), hand.give(held)));
        }
        if left.is_hand_due {
            self.try_for_all(None);
        }
    }
}

/// What a future got, with its place in the queue.
type Own = Option<(Result<Held>, Queued)>;

impl<T> Hand<T> {
    /// Returns what it got for the future `own`.
    fn try_for_futures(&self, kind: Kind, own: Option<u64>, woken: &mut Vec<Waker>) -> (Own, Due) {
        let bell = &self.home.bell;
        let queue = bell.queue(kind, self.member.number());
        let (mut of_own, mut due) = (None, Due::NOBODY);
        queue.hear();
        while !queue.is_empty() {
            let (next, told) = self.listen(kind);
            due = due.and(told);
            let answer = match next {
                Ok(Next::Won(held)) => Ok(held),
                Ok(Next::Sleep) => return (of_own, due),
                Ok(Next::Over) if bell.is_stopped() => Err(Error::Stopped),
                // A stop has ended the hand's wait and answered those that waited then, and the pool was resumed.
                Ok(Next::Over) => continue,
                Err(error) => Err(error),
            };
            match queue.answer_first(bell, answer, own) {
                (Some(first), Some(answer)) => of_own = Some((answer, first)),
                (Some(first), None) => woken.extend(first.waker),
                // The last one has been dropped meanwhile.
                (None, Some(Ok(held))) => due = due.and(self.give(held)),
                (None, _) => (),
            }
        }
        (of_own, due.and(self.end_listening(kind)))
    }
}

impl<L: Lends> Drop for Waiting<L> {
    fn drop(&mut self) {
        self.end();
    }
}

/// The future of [`Hand::get_async`] and [`Hand::get_reserved_async`]. Dropping it ends the wait. One that is leaked
/// stays in its place, where it is woken and gets a tag in its turn; that tag goes back when the hand is dropped.
#[must_use = "a future does nothing unless it is polled"]
pub struct GetAsync<'a, T = ()> {
    waiting: Waiting<&'a Hand<T>>,
}

impl<'a, T> GetAsync<'a, T> {
    pub(crate) fn new(hand: &'a Hand<T>, kind: Kind) -> GetAsync<'a, T> {
        GetAsync {
            waiting: Waiting::new(hand, kind),
        }
    }
}

impl<'a, T> Future for GetAsync<'a, T> {
    type Output = Result<Tag<'a, T>>;

    fn poll(mut self: Pin<&mut Self>, context: &mut Context<'_>) -> Poll<Self::Output> {
        let hand = self.waiting.lender;
        let found = self.waiting.poll(context.waker());
        found.map_ok(|held| Tag::new(hand, held))
    }
}

impl<T> fmt::Debug for GetAsync<'_, T> {
    fn fmt(&self, f: &mut fmt::Formatter<'_>) -> fmt::Result {
        f.debug_struct("GetAsync").finish_non_exhaustive()
    }
}

/// The future of [`SharedHand::get_async`] and [`SharedHand::get_reserved_async`]. It keeps its hand alive, and so does
/// its tag.
#[must_use = "a future does nothing unless it is polled"]
pub struct GetAsyncOwned<T = ()> {
    waiting: Waiting<SharedHand<T>>,
    /// The hands that may keep what this waits for, until its first poll.
    keepers: Option<SharedHands<T>>,
}

impl<T> GetAsyncOwned<T> {
    pub(crate) fn new(hand: SharedHand<T>, kind: Kind) -> GetAsyncOwned<T> {
        GetAsyncOwned {
            waiting: Waiting::new(hand, kind),
            keepers: None,
        }
    }

    /// The same, for an ordinary tag that one of these hands may keep.
    pub(crate) fn among(hand: SharedHand<T>, keepers: SharedHands<T>) -> GetAsyncOwned<T> {
        GetAsyncOwned {
            keepers: Some(keepers),
            ..GetAsyncOwned::new(hand, Kind::Ordinary)
        }
    }
}

impl<T> Future for GetAsyncOwned<T> {
    type Output = Result<OwnedTag<T>>;

    /// Once it waits it is counted, and a clear keeps nothing: what hands have kept before goes back then.
    fn poll(mut self: Pin<&mut Self>, context: &mut Context<'_>) -> Poll<Self::Output> {
        let keepers = self.keepers.take();
        let found = self.waiting.poll(context.waker());
        if found.is_pending() {
            keepers.iter().for_each(SharedHands::flush);
        }
        let hand = &self.waiting.lender;
        found.map_ok(|held| hand.tag(&mut hand.lock(), held))
    }
}

impl<T> fmt::Debug for GetAsyncOwned<T> {
    fn fmt(&self, f: &mut fmt::Formatter<'_>) -> fmt::Result {
        f.debug_struct("GetAsyncOwned").finish_non_exhaustive()
    }
}
