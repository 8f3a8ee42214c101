// Made of crates/tag_core/src/bell.rt, where the contracts are, by rust/generate.

//! Callers that wait: how a caller lists itself, is told, and gets up.

use crate::proved::tag_core::berth::{Berth, Waiter};
use crate::proved::tag_core::caller::Caller;
use crate::proved::tag_core::map::Map;
use crate::proved::tag_core::spots::{berth_spot, clock_spot, waiters_spot};

/// Callers that were told, a bit for the number of each: 1 is told. Only `tell` makes one that is not 0, and only its
/// callers can be roused by it.
pub struct Unroused {
    callers: u64,
}

impl Unroused {
    /// Nobody.
    #[inline]
    pub fn none() -> Unroused {
        Unroused { callers: 0 }
    }

    /// Returns the callers that were told.
    #[inline]
    pub fn callers(&self) -> u64 {
        self.callers
    }

    /// Adds those of another one.
    #[inline]
    pub fn join(&mut self, others: Unroused) {
        self.callers |= others.callers;
    }
}

impl<R> Map<R> {
    /// The caller's bit in the word of all who wait.
    #[inline]
    fn own_bit(&self, caller: &Caller<R>) -> u64 {
        1 << caller.number
    }

    /// The caller joins all who wait, before it lists itself. One step, `fetch_or`.
    #[inline]
    pub fn enter(&self, caller: &mut Caller<R>) {
        let bit = self.own_bit(caller);
        let table = &self.table.shared;
        table.fetch_or(&mut caller.seat, waiters_spot(), bit);
    }

    /// The caller leaves all who wait, after it got up. One step, `fetch_and`.
    #[inline]
    pub fn leave(&self, caller: &mut Caller<R>) {
        let bit = self.own_bit(caller);
        let table = &self.table.shared;
        table.fetch_and(&mut caller.seat, waiters_spot(), !bit);
    }

    /// Returns all who wait: a bit is 1 if the caller of that number does. One step, a load.
    #[inline]
    pub fn look_all(&self, caller: &mut Caller<R>) -> u64 {
        let table = &self.table.shared;
        table.load(&mut caller.seat, waiters_spot())
    }

    /// Returns the next turn, which the caller takes. One step, `fetch_add` of the clock, which counts by 8 so that it
    /// begins anew after `TURNS` turns.
    #[inline]
    pub fn take_turn(&self, caller: &mut Caller<R>) -> u64 {
        let table = &self.table.shared;
        let found = table.fetch_add(&mut caller.seat, clock_spot(), 8);
        found / 8
    }

    /// Lists the caller as this waiter, with a turn that it took, and returns its berth as it was. It is among all who
    /// wait already. One step, a swap.
    #[inline]
    pub fn enlist(&self, caller: &mut Caller<R>, waiter: Waiter, turn: u64) -> Berth {
        let word = Berth::Listed(waiter, turn).to_word();
        let table = &self.table.shared;
        let found = table.swap(&mut caller.seat, berth_spot(caller.number), word);
        Berth::of_word(found)
    }

    /// Returns the berth of the caller of this number, which may be the caller itself. One step, a load.
    #[inline]
    pub fn look_at(&self, caller: &mut Caller<R>, whom: u32) -> Berth {
        let table = &self.table.shared;
        let found = table.load(&mut caller.seat, berth_spot(whom));
        Berth::of_word(found)
    }

    /// Returns the caller's own berth. One step, a load.
    #[inline]
    pub fn look_at_own(&self, caller: &mut Caller<R>) -> Berth {
        let number = caller.number;
        self.look_at(caller, number)
    }

    /// Tells the caller of this number, if it is listed as this waiter with this turn, and returns it then. One step, a
    /// compare-and-exchange.
    #[inline]
    pub fn tell(&self, caller: &mut Caller<R>, whom: u32, waiter: Waiter, turn: u64) -> Unroused {
        let listed = Berth::Listed(waiter, turn).to_word();
        let told = Berth::Told(waiter, turn).to_word();
        let table = &self.table.shared;
        let found = table.compare_exchange(&mut caller.seat, berth_spot(whom), listed, told);
        if found != listed {
            return Unroused::none();
        }
        Unroused { callers: 1 << whom }
    }

    /// The caller gets up: it is listed no more. Returns its berth as it was, which shows whether somebody had told it. One
    /// step, a swap.
    #[inline]
    pub fn get_up(&self, caller: &mut Caller<R>) -> Berth {
        let table = &self.table.shared;
        let found = table.swap(&mut caller.seat, berth_spot(caller.number), 0);
        Berth::of_word(found)
    }
}
