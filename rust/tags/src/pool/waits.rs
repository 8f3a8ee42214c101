//! Waits for a hand and for tags, and the end of all waits.

use crate::error::{Error, Result};
use crate::gate::{deadline, Counted};
use crate::hand::Hand;
use crate::lists::Busy;
use crate::options::Kind;
use crate::pool::Pool;
use crate::queues::Line;
use core::time::Duration;

impl<T> Pool<T> {
    /// Returns a hand for one thread, and sleeps while all hands are out. Whoever asks first once one is dropped has
    /// it. Don't sleep while this thread has a hand that others wait for. [`stop`](Pool::stop) ends the sleep.
    ///
    /// ```
    /// # use tags::{Options, Pool};
    /// # fn main() -> tags::Result<()> {
    /// let pool = Pool::open(&Options::new(4, 2))?;
    /// std::thread::scope(|threads| {
    ///     for _ in 0..8 {
    ///         threads.spawn(|| drop(pool.join_blocking().unwrap().get_blocking().unwrap()));
    ///     }
    /// });
    /// assert_eq!(pool.close().unwrap().back, 8);
    /// # Ok(())
    /// # }
    /// ```
    pub fn join_blocking(&self) -> Result<Hand<T>> {
        self.join_until(None).and_then(|hand| hand.ok_or(Error::Stopped))
    }

    /// The same, for at most this long. `None` means that the time is up. With a time of 0 it tries, and does not
    /// sleep.
    ///
    /// ```
    /// # use std::time::Duration;
    /// # use tags::{Options, Pool};
    /// # fn main() -> tags::Result<()> {
    /// let pool = Pool::open(&Options::new(4, 1))?;
    /// let hand = pool.join_timeout(Duration::ZERO)?;
    /// assert!(hand.is_some() && pool.join_timeout(Duration::from_millis(5))?.is_none());
    /// # Ok(())
    /// # }
    /// ```
    pub fn join_timeout(&self, time: Duration) -> Result<Option<Hand<T>>> {
        self.join_until(deadline(self.home.bell.sleeper, time))
    }

    /// Joins, and sleeps while all hands are out, at most until the end. `None` means that the time is up.
    fn join_until(&self, end: Option<Duration>) -> Result<Option<Hand<T>>> {
        let bell = &self.home.bell;
        let begin = bell.stops();
        let look = || match self.join() {
            Err(Error::NoHand) if bell.has_ended(begin) => Some(Err(Error::Stopped)),
            Err(Error::NoHand) => None,
            joined => Some(joined),
        };
        match look() {
            Some(joined) => joined.map(Some),
            None => bell.hands().wait(bell.sleeper, end, look).transpose(),
        }
    }

    /// Sleeps until all tags are back: none of either set is held, posted or queued, or kept in a cache. For a shutdown and
    /// before a resize, when threads get no more tags: where they do, all of them need not have been back at any one
    /// moment. A hand that keeps tags gives them back with its next clear, by a [`flush`](Hand::flush), or when it is
    /// dropped. A [`stop`](Pool::stop) does not end this.
    ///
    /// ```
    /// # use std::time::Duration;
    /// # use tags::{Options, Pool};
    /// # fn main() -> tags::Result<()> {
    /// let pool = Pool::open(&Options::new(4, 1))?;
    /// let hand = pool.join()?;
    /// let tag = hand.get_blocking()?;
    /// assert!(!pool.drain_timeout(Duration::from_millis(5)));
    /// drop(tag);
    /// pool.drain();
    /// # Ok(())
    /// # }
    /// ```
    pub fn drain(&self) {
        self.drain_until(None);
    }

    /// The same, for at most this long. Returns whether all tags are back.
    #[must_use]
    pub fn drain_timeout(&self, time: Duration) -> bool {
        self.drain_until(deadline(self.home.bell.sleeper, time))
    }

    /// Whoever gives tags back looks whether anybody waits, and then opens the gate. Returns whether all tags are back.
    fn drain_until(&self, end: Option<Duration>) -> bool {
        let bell = &self.home.bell;
        let _counted = Counted::new(bell.waiting());
        let look = || {
            let busy = [Kind::Ordinary, Kind::Reserved].map(|kind| self.show(kind).busy);
            (busy == [0, 0]).then_some(())
        };
        bell.tags().wait(bell.sleeper, end, look).is_some()
    }

    /// Sleeps until each tag of a list has been back: for the end of a part of the work, such as a connection of a
    /// server, while the rest goes on. The list may have tags of either set, any number of them, in any order.
    ///
    /// It returns once each of these tags was found free at some moment of the call, though not all of them at one
    /// moment. A tag that others get after it was found is not waited for again; so begin no request of that connection
    /// any more. A tag that is held, posted or kept in a cache is not free; so for one that this thread itself holds it
    /// may sleep for ever. Caches and a [`stop`](Pool::stop) are as with [`drain`](Pool::drain).
    ///
    /// It looks at the pool at first, and then at most once in a millisecond; and after each of its looks each hand does
    /// so once, as soon as it gives tags back. So a tag is found if it is the first that its hand gives back, though
    /// others get it again at once. One that is got again between two looks is busy to the second one, and has to be
    /// found by a later one.
    ///
    /// It returns [`NoSuchTag`](Error::NoSuchTag) if the pool has no tag of one of these numbers, and
    /// [`NoMemory`](Error::NoMemory) if it can't note them.
    ///
    /// ```
    /// # use std::time::Duration;
    /// # use tags::{Error, Options, Pool};
    /// # fn main() -> tags::Result<()> {
    /// let pool = Pool::open(&Options::new(4, 1))?;
    /// let hand = pool.join()?;
    /// let (ends, goes_on) = (hand.get_blocking()?, hand.get_blocking()?);
    /// let request = ends.number();
    /// assert!(!pool.drain_list_timeout(&[request], Duration::from_millis(5))?);
    /// drop(ends);
    /// pool.drain_list(&[request])?;
    /// assert_eq!(pool.drain_list(&[request, 4]), Err(Error::NoSuchTag));
    /// # drop(goes_on);
    /// # Ok(())
    /// # }
    /// ```
    pub fn drain_list(&self, numbers: &[u32]) -> Result<()> {
        self.drain_list_until(numbers, None).map(|_| ())
    }

    /// The same, for at most this long. Returns whether each tag has been back.
    pub fn drain_list_timeout(&self, numbers: &[u32], time: Duration) -> Result<bool> {
        self.drain_list_until(numbers, deadline(self.home.bell.sleeper, time))
    }

    fn drain_list_until(&self, numbers: &[u32], end: Option<Duration>) -> Result<bool> {
        let bell = &self.home.bell;
        let total = self.home.roster.lock().total();
        if numbers.iter().any(|number| *number >= total) {
            return Err(Error::NoSuchTag);
        }
        let _counted = Counted::new(bell.waiting());
        let report = |busy: &mut Busy| {
            let all = self.busy(busy);
            debug_assert!(all.is_ok(), "there is a bit for each tag");
        };
        Ok(bell.lists().enter(numbers, total)?.wait(bell.sleeper, end, report))
    }

    /// Ends every wait for a tag or a hand, or in a queue, now and from now on, as for a shutdown. Threads that sleep for
    /// one of these and futures that wait are woken. From now on [`Hand::get_blocking`], [`Hand::get_timeout`],
    /// [`Hand::get_async`] and the same calls for a reserved tag return [`Stopped`](crate::Error::Stopped), even while a
    /// tag is free, and so do [`join_blocking`](Pool::join_blocking) and the calls that wait in a queue, such as
    /// [`Hand::next_blocking`], where they would have to sleep. A call that was waiting may still return a tag or a hand.
    /// Tags still go back, and [`Hand::get`] and [`Hand::next`] still take them.
    ///
    /// ```
    /// # use tags::{Error, Options, Pool};
    /// # fn main() -> tags::Result<()> {
    /// let pool = Pool::open(&Options::new(1, 2))?;
    /// let (first, second) = (pool.join()?, pool.join()?);
    /// let tag = first.get_blocking()?;
    /// std::thread::scope(|threads| {
    ///     let waiter = threads.spawn(move || second.get_blocking().map(|tag| tag.number()));
    ///     pool.stop();
    ///     assert_eq!(waiter.join().unwrap(), Err(Error::Stopped));
    /// });
    /// # drop(tag);
    /// # Ok(())
    /// # }
    /// ```
    pub fn stop(&self) {
        self.home.bell.stop();
        self.token_pools().for_each(|tokens| tokens.stop());
    }

    /// Lets waits begin again after [`stop`](Pool::stop). A wait that began before the stop ends, also if this call
    /// follows at once.
    ///
    /// ```
    /// # use tags::{Error, Options, Pool};
    /// # fn main() -> tags::Result<()> {
    /// let pool = Pool::open(&Options::new(1, 1))?;
    /// let hand = pool.join()?;
    /// pool.stop();
    /// assert_eq!(hand.get_blocking().unwrap_err(), Error::Stopped);
    /// pool.resume();
    /// assert!(hand.get_blocking().is_ok());
    /// # Ok(())
    /// # }
    /// ```
    pub fn resume(&self) {
        self.home.bell.resume();
        self.token_pools().for_each(|tokens| tokens.resume());
    }

    /// Those of the queues, to be used without the lock, as wakers may need that.
    fn token_pools(&self) -> impl Iterator<Item = Pool> + '_ {
        (0..).map_while(|queue| {
            let roster = self.home.roster.lock();
            roster.queues().line(queue).map(Line::tokens).ok()
        })
    }
}
