// Made of crates/wake_book/src/charge.rt, where the contracts are, by rust/generate.

//! Counts completions, and charges a batch of them if one is due.

use crate::proved::wake_book::book::{Book, Teller, COMPLETIONS, WAKEUPS};

/// Exchanges that a charge may lose before it leaves the batch to a later completion.
const TRIES: u32 = 16;

/// The outcome of a `count`. A batch is due if at least a batch of completions are not charged yet.
#[derive(Clone, Copy, Debug, PartialEq, Eq)]
pub enum Charge {
    /// The teller's count would exceed the cap. Nothing was counted, and no step was made.
    Full,
    /// The completions were counted, and no batch was due.
    Below,
    /// The completions were counted and one batch charged: the wakeup count advanced by a batch from this number.
    Won(u64),
    /// The completions were counted, but all 16 tries to charge a batch lost their exchange. Nothing was charged.
    Busy,
}

impl Book {
    /// Sets the batch of later charges, 1 to 8. The table and its limits are unchanged: counts and intervals continue.
    pub fn rebatch(&mut self, batch: u32) {
        self.batch = batch;
    }

    /// Counts `n` completions, 1 to 64, and charges one batch if one is due. Other tellers may count and charge
    /// meanwhile. It is the counterpart of `sbitmap_queue_wake_up` (lib/sbitmap.c) up to the wakeups, with at most 16
    /// tries.
    pub fn count(&self, teller: &mut Teller, n: u32) -> Charge {
        let n = n as u64;
        if n + teller.count > self.limits.cap {
            return Charge::Full;
        }
        self.add(teller, n);
        for _ in 0..TRIES {
            let start = self.look_wakeups(teller);
            let end = start + self.batch as u64;
            if self.look_completions(teller) < end {
                return Charge::Below;
            }
            if self.advance(teller, start, end) {
                return Charge::Won(start);
            }
        }
        Charge::Busy
    }

    /// Returns the completions and the wakeups. The wakeups are loaded first, so they are at most as many.
    pub fn counts(&self, teller: &mut Teller) -> (u64, u64) {
        let wakeups = self.look_wakeups(teller);
        let completions = self.look_completions(teller);
        (completions, wakeups)
    }

    /// Loads the wakeups and then the completions without a teller, and returns the completions first.
    pub fn peek_counts(&self) -> (u64, u64) {
        let wakeups = self.table.shared.peek(WAKEUPS);
        let completions = self.table.shared.peek(COMPLETIONS);
        (completions.max(wakeups), wakeups)
    }

    fn look_completions(&self, teller: &mut Teller) -> u64 {
        self.table.shared.load(&mut teller.seat, COMPLETIONS)
    }

    fn look_wakeups(&self, teller: &mut Teller) -> u64 {
        self.table.shared.load(&mut teller.seat, WAKEUPS)
    }

    fn add(&self, teller: &mut Teller, n: u64) {
        self.table.shared.fetch_add(&mut teller.seat, COMPLETIONS, n);
        teller.count += n;
    }

    /// Advances the wakeup count from `start` to `end` if it is still `start`.
    fn advance(&self, teller: &mut Teller, start: u64, end: u64) -> bool {
        let found = self
            .table
            .shared
            .compare_exchange(&mut teller.seat, WAKEUPS, start, end);
        if found != start {
            return false;
        }
        teller.charges += 1;
        true
    }
}
