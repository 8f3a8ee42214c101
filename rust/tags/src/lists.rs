//! Waits until each tag of a list has been back: for the end of a part of the work, while the rest goes on.
//!
//! Whoever waits counts its looks, and rests a while before each but the first. After each of them each hand looks once, as
//! soon as it gives tags back, for all who wait: others may have its tags by the time that those look. Then it wakes them. So
//! a call is seldom slowed. A look is counted before it is made, and a hand loads the count after its tags are back, all by
//! sequentially consistent steps. So a hand that finds the count as it was has wakened those who wait since, and they look
//! after its tags are back.

use crate::allocator::MAX_TOTAL;
use crate::base::lock::Lock;
use crate::base::word::AtomicU32;
use crate::error::{Error, Result};
use crate::gate::{is_past, Gate};
use crate::sleep::Sleeper;
use alloc::vec::Vec;
use core::cell::Cell;
use core::sync::atomic::Ordering::SeqCst;
use core::time::Duration;

const FIRST_REST: Duration = Duration::from_micros(16);
const LONGEST_REST: Duration = Duration::from_millis(1);

/// Which tags are busy: bit `t % 64` of word `t / 64` is 1 if tag `t` is.
pub(crate) type Busy = [u64; MAX_TOTAL as usize / 64];

/// Those who wait for the tags of lists.
pub(crate) struct Lists {
    /// How often those who wait have looked.
    looks: AtomicU32,
    gate: Gate,
    waits: Lock<Waits>,
}

struct Waits {
    /// How many have begun.
    begun: u64,
    going_on: Vec<Wait>,
}

struct Wait {
    number: u64,
    /// Those of its list that were busy at each look, as in [`Busy`].
    left: Vec<u64>,
}

impl Wait {
    /// Leaves out what is free. Returns whether any tag is left.
    fn leave_out(&mut self, busy: &Busy) -> bool {
        let words = self.left.iter_mut().zip(busy);
        words.fold(false, |is_any, (left, busy)| {
            *left &= busy;
            is_any || *left != 0
        })
    }
}

impl Lists {
    pub fn new(sleeper: &'static dyn Sleeper) -> Lists {
        let waits = Waits {
            begun: 0,
            going_on: Vec::new(),
        };
        Lists {
            looks: AtomicU32::new(0),
            gate: Gate::default(),
            waits: Lock::new(waits, sleeper),
        }
    }

    /// Begins a wait for the tags of a list, all of which are below the total.
    pub fn enter(&self, numbers: &[u32], total: u32) -> Result<Listed<'_>> {
        let mut left = Vec::new();
        let length = total.div_ceil(64) as usize;
        left.try_reserve_exact(length).map_err(|_| Error::NoMemory)?;
        left.resize(length, 0);
        for number in numbers {
            left[*number as usize / 64] |= 1 << (number % 64);
        }
        let mut waits = self.waits.lock();
        waits.going_on.try_reserve(1).map_err(|_| Error::NoMemory)?;
        waits.begun += 1;
        let number = waits.begun;
        waits.going_on.push(Wait { number, left });
        Ok(Listed { lists: self, number })
    }

    /// After a hand gave tags back: looks for all who wait, once after each look of theirs, and wakes them. The hand keeps
    /// what the count was when it looked last.
    pub fn tags_are_back(&self, sleeper: &dyn Sleeper, last: &Cell<u32>, report: impl FnOnce(&mut Busy)) {
        let looks = self.looks.load(SeqCst);
        if last.replace(looks) == looks {
            return;
        }
        let mut waits = self.waits.lock();
        if !waits.going_on.is_empty() {
            let mut busy = [0; MAX_TOTAL as usize / 64];
            // With the lock: who begins to wait later may wait for a tag that this finds free.
            report(&mut busy);
            waits.going_on.iter_mut().for_each(|wait| {
                wait.leave_out(&busy);
            });
        }
        drop(waits);
        self.gate.open(sleeper);
    }
}

/// A wait for the tags of a list, until it is dropped.
pub(crate) struct Listed<'a> {
    lists: &'a Lists,
    number: u64,
}

impl Listed<'_> {
    /// Sleeps until each tag has been back, at most until the end. Returns whether it has.
    pub fn wait(&self, sleeper: &dyn Sleeper, end: Option<Duration>, report: impl Fn(&mut Busy)) -> bool {
        let rest = Cell::new(Duration::ZERO);
        let look = || {
            let mut busy = [u64::MAX; MAX_TOTAL as usize / 64];
            // Whoever woke it has looked for it, and may have left all tags out.
            if self.is_any_left(&busy) {
                rest.set(self.rest(sleeper, end, rest.get()));
                self.lists.looks.fetch_add(1, SeqCst);
                report(&mut busy);
            }
            (!self.is_any_left(&busy)).then_some(())
        };
        self.lists.gate.wait(sleeper, end, look).is_some()
    }

    /// Leaves out what is free.
    fn is_any_left(&self, busy: &Busy) -> bool {
        let mut waits = self.lists.waits.lock();
        let mut own = waits.going_on.iter_mut().filter(|wait| wait.number == self.number);
        own.next().is_some_and(|wait| wait.leave_out(busy))
    }

    /// Rests before a look that is not the first one, and returns how long it is to rest next.
    fn rest(&self, sleeper: &dyn Sleeper, end: Option<Duration>, time: Duration) -> Duration {
        let now = sleeper.now();
        // `Duration::MAX` is no time: there is no clock.
        if !time.is_zero() && now < Duration::MAX && !is_past(sleeper, end) {
            let until = now.saturating_add(time);
            sleeper.sleep(&AtomicU32::new(0), 0, Some(end.map_or(until, |end| end.min(until))));
        }
        (2 * time).clamp(FIRST_REST, LONGEST_REST)
    }
}

impl Drop for Listed<'_> {
    fn drop(&mut self) {
        let mut waits = self.lists.waits.lock();
        waits.going_on.retain(|wait| wait.number != self.number);
    }
}
