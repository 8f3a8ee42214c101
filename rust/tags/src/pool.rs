//! Pools: opening, joining, resizing and closing.

use crate::allocator::{Roster, MAX_TOTAL};
use crate::base::lock::Lock;
use crate::bell::Bell;
use crate::cells::Values;
use crate::error::{CloseError, Error, Result};
use crate::hand::Hand;
use crate::options::{Kind, Options, Totals};
use crate::queues::Queues;
use crate::sleep::{default_sleeper, Sleeper};
use alloc::sync::Arc;
use core::fmt;
use core::panic::{RefUnwindSafe, UnwindSafe};
use core::sync::atomic::Ordering::SeqCst;

mod reports;
mod waits;

/// Tags that threads share, each thread through a [`Hand`] of its own, with a value of type `T` beside each tag.
///
/// A pool that is dropped lives on until its last hand is dropped. Only [`close`](Pool::close) returns the totals. Each
/// value is dropped once, when the pool and all its hands are gone.
///
/// ```compile_fail
/// fn send<T: Send>() {}
/// send::<tags::Pool<std::rc::Rc<u8>>>();
/// ```
pub struct Pool<T = ()> {
    home: Arc<Home<T>>,
}

/// What a pool shares with its hands.
pub(crate) struct Home<T> {
    pub bell: Bell,
    pub roster: Lock<Roster<T>>,
    /// The most tags of a batch.
    pub batch_limit: u32,
    reserved: u32,
}

impl<T> Home<T> {
    /// How many wait, also in these queues, which are the pool's.
    pub fn count_waiting(&self, queues: &Queues) -> u32 {
        self.bell.waiting().load(SeqCst) + queues.waiting()
    }
}

// As with a lock of `std` that is poisoned: what a panic leaves behind beside a tag, its next holder finds.
impl<T: UnwindSafe + RefUnwindSafe> UnwindSafe for Pool<T> {}
impl<T: UnwindSafe + RefUnwindSafe> RefUnwindSafe for Pool<T> {}

impl Pool {
    /// Opens a pool. All tags are free, and all slots are 0.
    ///
    /// ```
    /// use tags::{Error, Options, Pool};
    ///
    /// assert_eq!(Pool::open(&Options::new(10_241, 1)).unwrap_err(), Error::TotalTooLarge);
    /// ```
    pub fn open(options: &Options) -> Result<Pool> {
        Pool::open_with(options, |_| ())
    }

    /// Changes the number of tags to `total`, as many of them reserved as before, once all hands are dropped. The
    /// ordinary tags are new, with slots of 0, and so are the queues; the reserved tags and the totals stay. On failure the
    /// pool is unchanged.
    ///
    /// ```
    /// # use tags::{Error, Kind, Options, Pool};
    /// # fn main() -> tags::Result<()> {
    /// let pool = Pool::open(&Options { reserved: 2, ..Options::new(16, 1) })?;
    /// let hand = pool.join()?;
    /// assert_eq!(pool.resize(32), Err(Error::HandsOut));
    /// drop(hand);
    /// pool.resize(32)?;
    /// assert_eq!(pool.join()?.show(Kind::Ordinary).depth, 30);
    /// # Ok(())
    /// # }
    /// ```
    pub fn resize(&self, total: u32) -> Result<()> {
        self.resize_with(total, |_| ())
    }
}

impl<T> Pool<T> {
    /// Opens a pool with a value beside each tag, which `make` returns for the tag's number. The value stays when its
    /// tag goes back.
    ///
    /// ```
    /// # use tags::{Options, Pool};
    /// # fn main() -> tags::Result<()> {
    /// let pool = Pool::open_with(&Options::new(4, 1), |_| Vec::with_capacity(512))?;
    /// let hand = pool.join()?;
    /// let mut tag = hand.get_blocking()?;
    /// tag.value_mut().push(7);
    /// assert_eq!(tag.value(), &[7]);
    /// # Ok(())
    /// # }
    /// ```
    pub fn open_with(options: &Options, make: impl FnMut(u32) -> T) -> Result<Pool<T>> {
        Pool::open_with_sleeper(options, default_sleeper(), make)
    }

    /// Opens a pool as [`open_with`](Pool::open_with) does, whose threads sleep by these means: for programs without
    /// `std`.
    pub fn open_with_sleeper(
        options: &Options,
        sleeper: &'static dyn Sleeper,
        make: impl FnMut(u32) -> T,
    ) -> Result<Pool<T>> {
        let roster = Roster::open(options, sleeper, make)?;
        let home = Home {
            bell: Bell::new(options, sleeper).ok_or(Error::NoMemory)?,
            batch_limit: roster.show(Kind::Ordinary).bits_per_word.max(1),
            roster: Lock::new(roster, sleeper),
            reserved: options.reserved,
        };
        Ok(Pool { home: Arc::new(home) })
    }

    /// Returns a hand for one thread. Its gets start in its own part of the tags, which reduces contention.
    ///
    /// A hand that was dropped while it held tags still holds them when it joins again, and can [claim](Hand::claim)
    /// them.
    ///
    /// ```
    /// # use tags::{Error, Options, Pool};
    /// # fn main() -> tags::Result<()> {
    /// let pool = Pool::open(&Options::new(4, 1))?;
    /// let hand = pool.join()?;
    /// assert_eq!(pool.join().unwrap_err(), Error::NoHand);
    /// drop(hand);
    /// assert!(pool.join().is_ok());
    /// # Ok(())
    /// # }
    /// ```
    pub fn join(&self) -> Result<Hand<T>> {
        self.join_now(true)
    }

    /// Like [`join`](Pool::join), but the hand's next get starts where its last one left off, or at tag 0.
    pub fn join_in_place(&self) -> Result<Hand<T>> {
        self.join_now(false)
    }

    /// The same pool once more.
    pub(crate) fn same(&self) -> Pool<T> {
        let home = Arc::clone(&self.home);
        Pool { home }
    }

    fn join_now(&self, is_placed: bool) -> Result<Hand<T>> {
        let member = self.home.roster.lock().join(is_placed)?;
        Ok(Hand::new(member, Arc::clone(&self.home)))
    }

    /// Like [`resize`](Pool::resize), with new values from `make` for the ordinary tags. The reserved tags keep theirs.
    /// It makes the new values first, and drops them if it is refused.
    ///
    /// ```
    /// # use tags::{Options, Pool};
    /// # fn main() -> tags::Result<()> {
    /// let pool = Pool::open_with(&Options { reserved: 1, ..Options::new(2, 1) }, |_| "old")?;
    /// pool.resize_with(3, |_| "new")?;
    /// let hand = pool.join()?;
    /// let (first, second) = (hand.get_reserved()?.unwrap(), hand.get_blocking()?);
    /// assert_eq!((*first.value(), *second.value()), ("old", "new"));
    /// # Ok(())
    /// # }
    /// ```
    pub fn resize_with(&self, total: u32, make: impl FnMut(u32) -> T) -> Result<()> {
        let reserved = self.home.reserved;
        // Of a total that is refused no value is made.
        let end = if total > MAX_TOTAL { reserved } else { total };
        let values = Values::new(reserved..end.max(reserved), make)?;
        let mut roster = self.home.roster.lock();
        let (left, answer) = roster.resize(total, values);
        if answer.is_ok() && self.home.bell.is_stopped() {
            // They are new, so nobody waits in them.
            roster.queues().stop();
        }
        drop(roster);
        // What the values do when they are dropped, they do without the lock.
        drop(left);
        answer
    }

    /// Closes a pool whose hands are all dropped, and returns its totals. On failure the error hands the pool back.
    ///
    /// ```
    /// # use tags::{Error, Options, Pool};
    /// # fn main() -> Result<(), Box<dyn std::error::Error>> {
    /// let pool = Pool::open(&Options::new(4, 1))?;
    /// let hand = pool.join()?;
    /// let refused = pool.close().unwrap_err();
    /// assert_eq!(refused.error, Error::HandsOut);
    /// drop(hand);
    /// assert_eq!(refused.pool.close()?.got, 0);
    /// # Ok(())
    /// # }
    /// ```
    pub fn close(self) -> core::result::Result<Totals, CloseError<T>> {
        let closed = self.home.roster.lock().close();
        match closed {
            Ok((totals, values)) => {
                drop(values);
                Ok(totals)
            }
            Err(error) => Err(CloseError { error, pool: self }),
        }
    }
}

impl<T> fmt::Debug for Pool<T> {
    fn fmt(&self, f: &mut fmt::Formatter<'_>) -> fmt::Result {
        f.debug_struct("Pool").finish_non_exhaustive()
    }
}
