//! Waits in a queue that block no thread.

use crate::error::Result;
use crate::future::GetAsync;
use crate::hand::Hand;
use crate::tag::Tag;
use core::fmt;
use core::future::Future;
use core::pin::Pin;
use core::task::{Context, Poll};

/// The future of [`Hand::next_async`]. Dropping it ends the wait. One that is leaked stays in its place; what it is told of
/// goes to others once the hand is dropped.
#[must_use = "a future does nothing unless it is polled"]
pub struct NextAsync<'a, T = ()> {
    hand: &'a Hand<T>,
    queue: u32,
    /// Its wait for a token, once it is polled.
    token: Option<GetAsync<'a>>,
}

impl<'a, T> NextAsync<'a, T> {
    pub(crate) fn new(hand: &'a Hand<T>, queue: u32) -> NextAsync<'a, T> {
        NextAsync {
            hand,
            queue,
            token: None,
        }
    }
}

impl<'a, T> Future for NextAsync<'a, T> {
    type Output = Result<Tag<'a, T>>;

    /// What the hand keeps goes back before it waits.
    fn poll(mut self: Pin<&mut Self>, context: &mut Context<'_>) -> Poll<Self::Output> {
        let hand = self.hand;
        let queue = hand.queue(self.queue)?;
        let token = self.token.get_or_insert_with(|| queue.hand.get_async());
        let Poll::Ready(token) = Pin::new(token).poll(context) else {
            hand.flush();
            return Poll::Pending;
        };
        self.token = None;
        Poll::Ready(match token {
            Ok(token) => Ok(hand.pop(queue, token)),
            Err(error) => hand.next_at_stop(queue, error),
        })
    }
}

impl<T> fmt::Debug for NextAsync<'_, T> {
    fn fmt(&self, f: &mut fmt::Formatter<'_>) -> fmt::Result {
        f.debug_struct("NextAsync").finish_non_exhaustive()
    }
}
