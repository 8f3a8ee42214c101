// Made of crates/tag_board/src/waits.rt, where the contracts are, by rust/generate.

//! Commands that wait.

use crate::base::sleep::Wait;
use crate::proved::tag_board::board::Board;
use crate::proved::tag_queue::{Left, WaitFault, Wakes};

impl Board {
    /// Enters a wait group, and returns its number, below 8. `Waiting` if the caller is in one already.
    pub fn wait(&mut self, caller: u32) -> Result<u32, WaitFault> {
        self.queue.prepare_wait(&mut self.hands[caller as usize])
    }

    /// Leaves the wait group, and returns whether the caller used a wakeup. It never sleeps. `NotWaiting` if the caller
    /// is in no group.
    pub fn leave<W: Wait>(&mut self, rt: &W, caller: u32) -> Result<Left, WaitFault> {
        self.queue.finish_wait(rt, &mut self.hands[caller as usize])
    }

    /// Returns the completions counted, the wakeups charged, the wake index, and the number of active waiters.
    pub fn wakes(&mut self, caller: u32) -> Wakes {
        self.queue.wakes(&mut self.hands[caller as usize])
    }
}
