//! Taking tags from queues.

use crate::error::{Error, Result};
use crate::gate::deadline;
use crate::hand::Hand;
use crate::options::Kind;
use crate::queue::Queue;
use crate::queues::{NextAsync, Use};
use crate::tag::Tag;
use core::time::Duration;

impl<T> Hand<T> {
    /// A queue, with the hand that this one has of its tokens.
    pub(crate) fn queue(&self, queue: u32) -> Result<Use<'_>> {
        self.member.set().queues().use_by(&self.token_hands, queue)
    }

    /// Takes the next tag of a queue, with its slot and its value: the one that was [submitted](Tag::submit) first. `None`
    /// means that the queue was found empty, but for tags that other hands are taking.
    ///
    /// A tag comes before another one if its submit had ended before that of the other one began. Refusals:
    /// [`NoSuchQueue`](Error::NoSuchQueue); [`NoMemory`](Error::NoMemory), where the hand uses the queue for the first
    /// time; and [`Spent`](Error::Spent), as the hand gets a token for each tag. Then nothing has been taken. A thread that was
    /// interrupted in the midst of its own submit or `next`, or of a [take](Hand::take) of a tag that was just being submitted,
    /// may keep this call waiting.
    ///
    /// ```
    /// # use tags::{Error, Options, Pool};
    /// # fn main() -> tags::Result<()> {
    /// let pool = Pool::open(&Options { queues: 1, ..Options::new(4, 2) })?;
    /// let (submitter, worker) = (pool.join()?, pool.join()?);
    /// for request in [70, 71] {
    ///     let tag = submitter.get_blocking()?;
    ///     tag.write(request);
    ///     tag.submit(0)?;
    /// }
    /// assert_eq!(worker.next(0)?.map(|tag| tag.read()), Some(70));
    /// assert_eq!(worker.next(0)?.map(|tag| tag.read()), Some(71));
    /// assert!(worker.next(0)?.is_none());
    /// assert_eq!(worker.next(1).unwrap_err(), Error::NoSuchQueue);
    /// # Ok(())
    /// # }
    /// ```
    pub fn next(&self, queue: u32) -> Result<Option<Tag<'_, T>>> {
        self.next_of(self.queue(queue)?)
    }

    pub(crate) fn next_of(&self, queue: Use<'_>) -> Result<Option<Tag<'_, T>>> {
        let token = queue.hand.get()?;
        Ok(token.map(|token| self.pop(queue, token)))
    }

    /// Takes the tag to which a token entitles.
    pub(crate) fn pop<'a>(&self, queue: Use<'a>, token: Tag<'a>) -> Tag<'_, T> {
        Tag::new(self, self.member.take_popped(queue.pop(token)))
    }

    /// Takes the next tag of a queue, as [`next`](Hand::next) does, and sleeps while there is none. What the hand keeps goes
    /// back before it sleeps. After a [stop](crate::Pool::stop) it takes what is queued, and is refused with
    /// [`Stopped`](Error::Stopped) where it would sleep: so threads that take tags until then take all that were submitted
    /// before the stop. While a future of this hand waits, a call that would have to sleep is refused with
    /// [`Waiting`](Error::Waiting).
    ///
    /// ```
    /// # use std::thread;
    /// # use tags::{Error, Options, Pool};
    /// # fn main() -> tags::Result<()> {
    /// let pool = Pool::open(&Options { queues: 1, ..Options::new(4, 2) })?;
    /// let (submitter, worker) = (pool.join()?, pool.join()?);
    /// thread::scope(|threads| {
    ///     let work = threads.spawn(move || loop {
    ///         match worker.next_blocking(0) {
    ///             Ok(tag) => println!("request {}", tag.read()),
    ///             Err(error) => return error,
    ///         }
    ///     });
    ///     submitter.get_blocking()?.submit(0)?;
    ///     pool.stop();
    ///     assert_eq!(work.join().unwrap(), Error::Stopped);
    ///     Ok(())
    /// })
    /// # }
    /// ```
    pub fn next_blocking(&self, queue: u32) -> Result<Tag<'_, T>> {
        let queue = self.queue(queue)?;
        match self.next_of(queue)? {
            Some(tag) => Ok(tag),
            None => self.sleep_for_next(queue, None)?.ok_or(Error::Stopped),
        }
    }

    /// Takes the next tag of a queue, and sleeps up to this long while there is none, as
    /// [`next_blocking`](Hand::next_blocking) does. `None` means that the time is up. With a time of 0 it tries once.
    ///
    /// ```
    /// # use std::time::Duration;
    /// # use tags::{Options, Pool};
    /// # fn main() -> tags::Result<()> {
    /// let pool = Pool::open(&Options { queues: 1, ..Options::new(4, 1) })?;
    /// let hand = pool.join()?;
    /// assert!(hand.next_timeout(0, Duration::from_millis(5))?.is_none());
    /// hand.get_blocking()?.submit(0)?;
    /// assert!(hand.next_timeout(0, Duration::ZERO)?.is_some());
    /// # Ok(())
    /// # }
    /// ```
    pub fn next_timeout(&self, queue: u32, time: Duration) -> Result<Option<Tag<'_, T>>> {
        let queue = self.queue(queue)?;
        let found = self.next_of(queue)?;
        if found.is_some() || time.is_zero() {
            return Ok(found);
        }
        self.sleep_for_next(queue, deadline(self.home.bell.sleeper, time))
    }

    /// After a try that found no tag. `None` means that the time is up.
    #[cold]
    fn sleep_for_next(&self, queue: Use<'_>, end: Option<Duration>) -> Result<Option<Tag<'_, T>>> {
        if self.has_futures() {
            return Err(Error::Waiting);
        }
        self.flush();
        match queue.hand.get_until(Kind::Ordinary, end) {
            Ok(token) => Ok(token.map(|token| self.pop(queue, token))),
            Err(error) => self.next_at_stop(queue, error).map(Some),
        }
    }

    /// After a wait that was refused: what was submitted before a stop is taken still.
    pub(crate) fn next_at_stop(&self, queue: Use<'_>, error: Error) -> Result<Tag<'_, T>> {
        match error {
            Error::Stopped => self.next_of(queue)?.ok_or(error),
            _ => Err(error),
        }
    }

    /// Takes the next tag of a queue, and while there is none, waits without blocking a thread, as
    /// [`get_async`](Hand::get_async) does for a free tag, and [`next_blocking`](Hand::next_blocking) after a stop. Futures of
    /// one hand may wait for tags and in any queues at once.
    ///
    /// ```
    /// # use tags::{Pool, Result};
    /// /// Carries out requests until the pool is stopped.
    /// async fn work(pool: &Pool) -> Result<()> {
    ///     let hand = pool.join()?;
    ///     loop {
    ///         let tag = hand.next_async(0).await?;
    ///         println!("request {}", tag.read());
    ///     }
    /// }
    /// ```
    pub fn next_async(&self, queue: u32) -> NextAsync<'_, T> {
        NextAsync::new(self, queue)
    }

    /// Whether futures of this hand wait: for a tag, or in a queue.
    pub(crate) fn has_futures(&self) -> bool {
        let for_tags = !self.home.bell.queues(self.member.number()).all(Queue::is_empty);
        for_tags || self.token_hands.joined().any(Hand::has_futures)
    }
}
