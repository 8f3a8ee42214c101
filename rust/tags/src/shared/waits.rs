//! Waits for a tag of a shared hand. A thread sleeps as a future does, behind the hand.

use crate::error::{Error, Result};
use crate::future::{GetAsyncOwned, Lends};
use crate::gate::deadline;
use crate::options::Kind;
use crate::owned::OwnedTag;
use crate::shared::SharedHand;
use crate::thread::wait_for;
use core::time::Duration;

impl<T> SharedHand<T> {
    /// Takes a free ordinary tag, and sleeps while there is none, for which it [allocates](crate#memory). Other threads
    /// can use the hand meanwhile.
    pub fn get_blocking(&self) -> Result<OwnedTag<T>> {
        self.block_for(Kind::Ordinary)
    }

    /// Takes a free reserved tag, and sleeps while there is none, as
    /// [`Hand::get_reserved_blocking`](crate::Hand::get_reserved_blocking) does. Other threads can use the hand
    /// meanwhile, also to wait for tags of either set.
    ///
    /// ```
    /// # use std::thread;
    /// # use tags::{Options, Pool};
    /// # fn main() -> tags::Result<()> {
    /// let pool = Pool::open(&Options { reserved: 1, ..Options::new(4, 1) })?;
    /// let hand = pool.join()?.into_shared();
    /// let flush = hand.get_reserved_blocking()?;
    /// thread::scope(|threads| {
    ///     let waiter = threads.spawn(|| hand.get_reserved_blocking().map(|tag| tag.number()));
    ///     drop(flush);
    ///     assert_eq!(waiter.join().unwrap(), Ok(0));
    /// });
    /// # Ok(())
    /// # }
    /// ```
    pub fn get_reserved_blocking(&self) -> Result<OwnedTag<T>> {
        self.block_for(Kind::Reserved)
    }

    #[inline(always)]
    fn block_for(&self, kind: Kind) -> Result<OwnedTag<T>> {
        loop {
            if let Some(tag) = self.get_unless_stopped(kind)? {
                return Ok(tag);
            }
            if let Some(tag) = self.sleep(kind, None)? {
                return Ok(tag);
            }
        }
    }

    /// Takes a free ordinary tag, and sleeps up to this long while there is none. `None` means that the time is up.
    /// With a time of 0 it tries once.
    ///
    /// ```
    /// # use std::time::Duration;
    /// # use tags::{Options, Pool};
    /// # fn main() -> tags::Result<()> {
    /// let pool = Pool::open(&Options::new(1, 1))?;
    /// let hand = pool.join()?.into_shared();
    /// let tag = hand.get_timeout(Duration::ZERO)?;
    /// assert!(tag.is_some() && hand.get_timeout(Duration::from_millis(5))?.is_none());
    /// # Ok(())
    /// # }
    /// ```
    pub fn get_timeout(&self, time: Duration) -> Result<Option<OwnedTag<T>>> {
        self.wait_for(Kind::Ordinary, time)
    }

    /// Takes a free reserved tag, and sleeps up to this long while there is none, as
    /// [`get_reserved_blocking`](SharedHand::get_reserved_blocking) does. `None` means that the time is up. With a time
    /// of 0 it tries once.
    pub fn get_reserved_timeout(&self, time: Duration) -> Result<Option<OwnedTag<T>>> {
        self.wait_for(Kind::Reserved, time)
    }

    #[inline(always)]
    fn wait_for(&self, kind: Kind, time: Duration) -> Result<Option<OwnedTag<T>>> {
        let found = self.get_unless_stopped(kind)?;
        if found.is_some() || time.is_zero() {
            return Ok(found);
        }
        self.sleep(kind, deadline(self.bell().sleeper, time))
    }

    /// Tries before a wait, which allocates memory, as a free tag needs none.
    #[inline(always)]
    fn get_unless_stopped(&self, kind: Kind) -> Result<Option<OwnedTag<T>>> {
        if self.bell().is_stopped() {
            return Err(Error::Stopped);
        }
        match kind {
            Kind::Ordinary => self.get(),
            Kind::Reserved => self.get_reserved(),
        }
    }

    /// Sleeps until there is a tag of this kind, or until this moment if there is one.
    #[cold]
    fn sleep(&self, kind: Kind, end: Option<Duration>) -> Result<Option<OwnedTag<T>>> {
        if kind == Kind::Reserved {
            self.flush();
        }
        let future = GetAsyncOwned::new(self.clone(), kind);
        wait_for(future, self.bell().sleeper, end).transpose()
    }

    /// Takes a free ordinary tag, and while there is none, waits without blocking a thread, as
    /// [`Hand::get_async`](crate::Hand::get_async) does. The future is `Send` and borrows nothing, and any number of
    /// futures may wait at once.
    ///
    /// ```
    /// fn send<T: Send + 'static>(_: T) {}
    ///
    /// fn check(hand: tags::SharedHand) {
    ///     send(async move {
    ///         let tag = hand.get_async().await?;
    ///         hand.get_async().await?; // while the tag is held
    ///         tags::Result::Ok(tag)
    ///     });
    /// }
    /// ```
    pub fn get_async(&self) -> GetAsyncOwned<T> {
        GetAsyncOwned::new(self.clone(), Kind::Ordinary)
    }

    /// Takes a free reserved tag, and while there is none, waits without blocking a thread, as
    /// [`Hand::get_reserved_async`](crate::Hand::get_reserved_async) does, by a future as that of
    /// [`get_async`](SharedHand::get_async).
    pub fn get_reserved_async(&self) -> GetAsyncOwned<T> {
        GetAsyncOwned::new(self.clone(), Kind::Reserved)
    }
}
