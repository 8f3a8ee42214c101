//! Waiting for a tag of a set, asleep: round by round, until a tag is won, or the time is up, or waits are stopped.

use crate::allocator::{Due, Next, Turn};
use crate::bell::Stops;
use crate::error::{Error, Result};
use crate::future::GetAsync;
use crate::gate::deadline;
use crate::hand::Hand;
use crate::options::Kind;
use crate::tag::Tag;
use core::time::Duration;

mod sleeping;

impl Kind {
    /// Why nobody waits for a tag of this kind where there are none.
    fn no_tag(self) -> Error {
        match self {
            Kind::Ordinary => Error::NoSuchTag,
            Kind::Reserved => Error::NoReserved,
        }
    }
}

/// Whether a hand is listed for futures.
#[derive(Clone, Copy, Default)]
pub(crate) enum Listening {
    /// It is not.
    #[default]
    Not,
    /// It waits since there were so many stops.
    Since(Stops),
}

impl<T> Hand<T> {
    /// Takes a free ordinary tag, and sleeps while there is none. Don't sleep while this thread holds the tags that the
    /// others wait for. While a future of this hand waits, a get that would have to sleep is refused with
    /// [`Waiting`](Error::Waiting): the thread that sleeps could not poll it.
    #[inline]
    pub fn get_blocking(&self) -> Result<Tag<'_, T>> {
        self.block_for(Kind::Ordinary)
    }

    /// Takes a free reserved tag, and sleeps while there is none, as [`get_blocking`](Hand::get_blocking) does for an
    /// ordinary one. A reserved tag that goes back wakes those that wait for one, and an ordinary one the others. What
    /// the hand keeps goes back before it sleeps. A pool without reserved tags refuses it with
    /// [`NoReserved`](Error::NoReserved).
    ///
    /// ```
    /// # use std::thread;
    /// # use tags::{Error, Options, Pool};
    /// # fn main() -> tags::Result<()> {
    /// let pool = Pool::open(&Options { reserved: 1, ..Options::new(4, 2) })?;
    /// let (first, second) = (pool.join()?, pool.join()?);
    /// let flush = first.get_reserved_blocking()?;
    /// thread::scope(|threads| {
    ///     // Three ordinary tags are free meanwhile.
    ///     let waiter = threads.spawn(move || second.get_reserved_blocking().map(|tag| tag.number()));
    ///     drop(flush);
    ///     assert_eq!(waiter.join().unwrap(), Ok(0));
    /// });
    /// let ordinary = Pool::open(&Options::new(4, 1))?;
    /// assert_eq!(ordinary.join()?.get_reserved_blocking().unwrap_err(), Error::NoReserved);
    /// # Ok(())
    /// # }
    /// ```
    pub fn get_reserved_blocking(&self) -> Result<Tag<'_, T>> {
        self.block_for(Kind::Reserved)
    }

    #[inline(always)]
    fn block_for(&self, kind: Kind) -> Result<Tag<'_, T>> {
        self.get_until(kind, None)?.ok_or(Error::Stopped)
    }

    /// Takes a free tag of this kind, and sleeps while there is none. `None` means that the time is up.
    #[inline(always)]
    pub(crate) fn get_until(&self, kind: Kind, end: Option<Duration>) -> Result<Option<Tag<'_, T>>> {
        match self.get_unless_stopped(kind)? {
            Some(tag) => Ok(Some(tag)),
            None => self.sleep(kind, end),
        }
    }

    #[inline(always)]
    fn get_unless_stopped(&self, kind: Kind) -> Result<Option<Tag<'_, T>>> {
        if self.home.bell.is_stopped() {
            return Err(Error::Stopped);
        }
        self.get_in(kind)
    }

    /// After a get that found no tag. `None` means that the time is up.
    #[cold]
    fn sleep(&self, kind: Kind, end: Option<Duration>) -> Result<Option<Tag<'_, T>>> {
        if self.member.set().depth(kind) == 0 {
            return Err(kind.no_tag());
        }
        if self.has_futures() {
            return Err(Error::Waiting);
        }
        // Whoever waits for an ordinary tag keeps none, as it found none.
        if kind == Kind::Reserved {
            self.flush();
        }
        let won = self.sleep_until(kind, end)?;
        Ok(won.map(|held| Tag::new(self, held)))
    }

    /// Takes a free ordinary tag, and sleeps up to this long while there is none. `None` means that the time is up.
    /// With a time of 0 it tries once.
    ///
    /// ```
    /// # use std::time::Duration;
    /// # use tags::{Options, Pool};
    /// # fn main() -> tags::Result<()> {
    /// let pool = Pool::open(&Options::new(1, 2))?;
    /// let (first, second) = (pool.join()?, pool.join()?);
    /// let tag = first.get_timeout(Duration::ZERO)?;
    /// assert!(tag.is_some() && second.get_timeout(Duration::from_millis(5))?.is_none());
    /// # Ok(())
    /// # }
    /// ```
    pub fn get_timeout(&self, time: Duration) -> Result<Option<Tag<'_, T>>> {
        self.wait_for(Kind::Ordinary, time)
    }

    /// Takes a free reserved tag, and sleeps up to this long while there is none, as
    /// [`get_reserved_blocking`](Hand::get_reserved_blocking) does. `None` means that the time is up. With a time of 0 it
    /// tries once.
    ///
    /// ```
    /// # use std::time::Duration;
    /// # use tags::{Options, Pool};
    /// # fn main() -> tags::Result<()> {
    /// let pool = Pool::open(&Options { reserved: 1, ..Options::new(4, 2) })?;
    /// let (first, second) = (pool.join()?, pool.join()?);
    /// let tag = first.get_reserved_timeout(Duration::ZERO)?;
    /// assert!(tag.is_some() && second.get_reserved_timeout(Duration::from_millis(5))?.is_none());
    /// # Ok(())
    /// # }
    /// ```
    pub fn get_reserved_timeout(&self, time: Duration) -> Result<Option<Tag<'_, T>>> {
        self.wait_for(Kind::Reserved, time)
    }

    #[inline(always)]
    fn wait_for(&self, kind: Kind, time: Duration) -> Result<Option<Tag<'_, T>>> {
        let found = self.get_unless_stopped(kind)?;
        if found.is_some() || time.is_zero() {
            return Ok(found);
        }
        self.sleep(kind, deadline(self.home.bell.sleeper, time))
    }

    /// Takes a free ordinary tag, and while there is none, waits without blocking a thread: the future is woken when a
    /// tag becomes free. It works with any runtime, and any number of futures of one hand may wait at once. A program
    /// that sleeps by means of its own, such as a scheduler, polls the future with a waker of its own.
    ///
    /// A tag that becomes free wakes a future of the hand that has waited longest, the first one that is not awake.
    /// When that is polled, the hand tries for all its futures that wait, in the order in which their waits began:
    /// those that get a tag are woken, and the others keep their places. Until then it is told of no other tag. So poll
    /// a future soon after it is woken, or drop it. Dropping it ends the wait, so a timeout of the runtime is one of
    /// the wait, too.
    ///
    /// ```
    /// # use std::future::Future;
    /// # use std::pin::pin;
    /// # use std::task::{Context, Poll, Waker};
    /// # use tags::{Options, Pool};
    /// # fn poll<T>(future: impl Future<Output = T>) -> Option<T> {
    /// #     match pin!(future).poll(&mut Context::from_waker(&std::sync::Arc::new(Nobody).into())) {
    /// #         Poll::Ready(value) => Some(value),
    /// #         Poll::Pending => None,
    /// #     }
    /// # }
    /// # struct Nobody;
    /// # impl std::task::Wake for Nobody { fn wake(self: std::sync::Arc<Self>) {} }
    /// # fn main() -> tags::Result<()> {
    /// let pool = Pool::open(&Options::new(1, 1))?;
    /// let hand = pool.join()?;
    /// let number = async { Ok::<_, tags::Error>(hand.get_async().await?.number()) };
    /// assert_eq!(poll(number), Some(Ok(0)));
    /// # Ok(())
    /// # }
    /// ```
    pub fn get_async(&self) -> GetAsync<'_, T> {
        GetAsync::new(self, Kind::Ordinary)
    }

    /// Takes a free reserved tag, and while there is none, waits without blocking a thread, as
    /// [`get_async`](Hand::get_async) does for an ordinary one. Futures of both kinds may wait at once. Those of one kind
    /// have their order, and are woken when a tag of that kind becomes free. A pool without reserved tags refuses it with
    /// [`NoReserved`](Error::NoReserved).
    ///
    /// ```
    /// # use tags::{Options, Pool};
    /// # async fn flush(pool: &Pool) -> tags::Result<()> {
    /// let hand = pool.join()?;
    /// let (read, flush) = (hand.get_async().await?, hand.get_reserved_async().await?);
    /// # drop((read, flush));
    /// # Ok(())
    /// # }
    /// ```
    pub fn get_reserved_async(&self) -> GetAsync<'_, T> {
        GetAsync::new(self, Kind::Reserved)
    }

    /// One round of the wait of this hand for its futures that wait for a tag of this kind. If it answers `Sleep` the hand
    /// is listed.
    pub(crate) fn listen(&self, kind: Kind) -> (Result<Next>, Due) {
        if self.member.set().depth(kind) == 0 {
            return (Err(kind.no_tag()), Due::NOBODY);
        }
        let (bell, listening) = (&self.home.bell, &self.listening[kind]);
        let (begin, turn) = match listening.get() {
            Listening::Not => (bell.stops(), Turn::Next),
            Listening::Since(begin) => (begin, Turn::Same),
        };
        let (next, due) = self.member.listen_on(kind, bell.has_ended(begin), turn);
        listening.set(match next {
            Ok(Next::Sleep) => Listening::Since(begin),
            _ => Listening::Not,
        });
        if let Ok(Next::Won(_)) = next {
            self.see_to_lists();
        }
        (next, due)
    }

    /// Ends the hand's wait for its futures: none of them waits for a tag of this kind.
    pub(crate) fn end_listening(&self, kind: Kind) -> Due {
        match self.listening[kind].take() {
            Listening::Not => Due::NOBODY,
            Listening::Since(_) => self.member.listen_on(kind, true, Turn::Same).1,
        }
    }
}
