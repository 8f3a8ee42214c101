//! Waits for a tag by hands that threads share. A thread waits behind the hand of its processor.

use crate::error::{Error, Result};
use crate::future::{GetAsyncOwned, Lends};
use crate::gate::Counted;
use crate::options::Kind;
use crate::owned::OwnedTag;
use crate::shared::SharedHand;
use crate::shared_hands::SharedHands;
use core::time::Duration;

impl<T> SharedHands<T> {
    /// Takes a free ordinary tag, and sleeps while there is none. Other threads use all hands meanwhile, and hands that
    /// keep tags keep none while a thread sleeps here.
    pub fn get_blocking(&self) -> Result<OwnedTag<T>> {
        match self.get_unless_stopped(Kind::Ordinary)? {
            Some(tag) => Ok(tag),
            None => self.while_none_is_kept(SharedHand::get_blocking),
        }
    }

    /// Takes a free reserved tag, and sleeps while there is none, behind the hand of this processor, as
    /// [`SharedHand::get_reserved_blocking`] does.
    ///
    /// ```
    /// # use tags::{Options, Pool};
    /// # fn main() -> tags::Result<()> {
    /// let pool = Pool::open(&Options { reserved: 2, ..Options::new(64, 8) })?;
    /// let hands = pool.share(0)?;
    /// std::thread::scope(|threads| {
    ///     for _ in 0..32 {
    ///         threads.spawn(|| drop(hands.get_reserved_blocking().unwrap()));
    ///     }
    /// });
    /// # Ok(())
    /// # }
    /// ```
    pub fn get_reserved_blocking(&self) -> Result<OwnedTag<T>> {
        match self.get_unless_stopped(Kind::Reserved)? {
            Some(tag) => Ok(tag),
            None => self.hand().get_reserved_blocking(),
        }
    }

    /// Takes a free ordinary tag, and sleeps up to this long while there is none. `None` means that the time is up.
    /// With a time of 0 it tries once.
    ///
    /// ```
    /// # use std::time::Duration;
    /// # use tags::{Options, Pool};
    /// # fn main() -> tags::Result<()> {
    /// let pool = Pool::open(&Options::new(1, 2))?;
    /// let hands = pool.share(2)?;
    /// let tag = hands.get_timeout(Duration::ZERO)?;
    /// assert!(tag.is_some() && hands.get_timeout(Duration::from_millis(5))?.is_none());
    /// # Ok(())
    /// # }
    /// ```
    pub fn get_timeout(&self, time: Duration) -> Result<Option<OwnedTag<T>>> {
        let found = self.get_unless_stopped(Kind::Ordinary)?;
        if found.is_some() || time.is_zero() {
            return Ok(found);
        }
        self.while_none_is_kept(|hand| hand.get_timeout(time))
    }

    /// Takes a free reserved tag, and sleeps up to this long while there is none, as
    /// [`SharedHand::get_reserved_timeout`] does.
    pub fn get_reserved_timeout(&self, time: Duration) -> Result<Option<OwnedTag<T>>> {
        let found = self.get_unless_stopped(Kind::Reserved)?;
        if found.is_some() || time.is_zero() {
            return Ok(found);
        }
        self.hand().get_reserved_timeout(time)
    }

    fn get_unless_stopped(&self, kind: Kind) -> Result<Option<OwnedTag<T>>> {
        if self.inner.hands[0].bell().is_stopped() {
            return Err(Error::Stopped);
        }
        match kind {
            Kind::Ordinary => self.get(),
            Kind::Reserved => self.get_reserved(),
        }
    }

    /// Has this processor's hand wait. What the hands keep goes back once a waiter is counted, and from then on a clear
    /// keeps nothing.
    #[cold]
    fn while_none_is_kept<R>(&self, wait: impl FnOnce(&SharedHand<T>) -> R) -> R {
        let _counted = self.inner.is_cached.then(|| {
            let counted = Counted::new(self.inner.hands[0].bell().waiting());
            self.flush();
            counted
        });
        wait(self.hand())
    }

    /// Takes a free ordinary tag, and while there is none, waits without blocking a thread, as [`SharedHand::get_async`]
    /// does, behind the hand of this processor. Hands that keep tags keep none while it waits.
    pub fn get_async(&self) -> GetAsyncOwned<T> {
        let hand = self.hand().clone();
        if self.inner.is_cached {
            return GetAsyncOwned::among(hand, self.clone());
        }
        GetAsyncOwned::new(hand, Kind::Ordinary)
    }

    /// Takes a free reserved tag, and while there is none, waits without blocking a thread, as
    /// [`SharedHand::get_reserved_async`] does, behind the hand of this processor.
    pub fn get_reserved_async(&self) -> GetAsyncOwned<T> {
        self.hand().get_reserved_async()
    }
}
