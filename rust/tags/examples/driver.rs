//! A queue of a driver in a system without Rust's library: the example is a library itself, without `std`. Whoever
//! submits a request gets a tag, and its command is beside the tag; the tag is posted, and its number goes to the
//! device. The interrupt that completes the request takes the tag by that number. A thread that finds no tag sleeps by
//! means of the kernel.
#![no_std]

use core::sync::atomic::{AtomicU32, Ordering::SeqCst};
use core::time::Duration;
use tags::{Hand, Options, Pool, Result, Sleeper};

/// What the driver needs of its kernel.
pub trait Kernel: Send + Sync {
    /// Puts the thread to sleep on this address while the condition holds, until the address is woken or the time has
    /// come.
    fn wait_on(&self, address: usize, condition: &dyn Fn() -> bool, end: Option<Duration>);

    /// Wakes all who sleep on this address, also in an interrupt.
    fn wake(&self, address: usize);

    /// The time since the start.
    fn uptime(&self) -> Duration;
}

/// The kernel's sleep as that of pools.
pub struct Sleeps<K>(pub K);

fn address(word: &AtomicU32) -> usize {
    word.as_ptr() as usize
}

impl<K: Kernel> Sleeper for Sleeps<K> {
    fn sleep(&self, word: &AtomicU32, expected: u32, end: Option<Duration>) {
        let is_expected = || word.load(SeqCst) == expected;
        self.0.wait_on(address(word), &is_expected, end);
    }

    fn wake(&self, word: &AtomicU32) {
        self.0.wake(address(word));
    }

    fn now(&self) -> Duration {
        self.0.uptime()
    }
}

/// A command of the device, and what it answered.
#[derive(Default)]
pub struct Command {
    /// The first block.
    pub block: u64,
    /// The status, once it is done.
    pub status: u32,
}

/// The queue of a device.
pub struct Queue {
    pool: Pool<Command>,
}

impl Queue {
    /// A queue of this depth for so many threads, which sleep by these means, and what its interrupt uses.
    pub fn open(depth: u32, threads: u32, sleeper: &'static dyn Sleeper) -> Result<(Queue, Interrupt)> {
        let options = Options::new(depth, threads + 1);
        let pool = Pool::open_with_sleeper(&options, sleeper, |_| Command::default())?;
        let hand = pool.join()?;
        Ok((Queue { pool }, Interrupt { hand }))
    }

    /// What a thread submits by.
    pub fn join(&self) -> Result<Submitter> {
        let hand = self.pool.join()?;
        Ok(Submitter { hand })
    }

    /// Ends all waits, and then waits for all requests.
    pub fn shut_down(&self) {
        self.pool.stop();
        self.pool.drain();
    }
}

/// A thread's way into the queue.
pub struct Submitter {
    hand: Hand<Command>,
}

impl Submitter {
    /// Waits for a tag, fills the command beside it, and passes both to the device.
    pub fn submit(&self, block: u64, ring: impl FnOnce(u32, u64)) -> Result<()> {
        let mut tag = self.hand.get_blocking()?;
        tag.value_mut().block = block;
        // The interrupt takes the tag, and may do so as soon as the device has its number.
        ring(tag.post(), block);
        Ok(())
    }
}

/// The interrupt's way into the queue. It has a hand of its own, since a lock might be held by the thread that it
/// interrupts.
pub struct Interrupt {
    hand: Hand<Command>,
}

impl Interrupt {
    /// Completes the request with this number, as the device has done. It takes no lock, and does not sleep.
    pub fn complete(&mut self, number: u32, status: u32) -> Result<()> {
        let mut tag = self.hand.take(number)?;
        tag.value_mut().status = status;
        Ok(())
    }
}
