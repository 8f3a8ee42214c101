// Made of crates/tag_board/src/gets.rt, where the contracts are, by rust/generate.

//! Commands that take tags.

use crate::proved::tag_board::board::Board;
use crate::proved::tag_queue::{Found, TagFault};

impl Board {
    /// Takes an ordinary tag that no caller held, or `None` if the search found none. `Spent` if winning one more tag
    /// could exceed the caller's life.
    pub fn get(&mut self, caller: u32) -> Result<Option<u32>, TagFault> {
        // Nobody sleeps on a board, so no tag that the sweeps freed keeps anybody waiting.
        let Found { answer, .. } = self.queue.get_quietly(&mut self.hands[caller as usize])?;
        self.tell_free(caller, answer);
        Ok(answer)
    }

    /// Takes a reserved tag that no caller held, or `None` if the search found none. `NoReserved` if the board has no
    /// reserved tags; otherwise as `get`.
    pub fn get_reserved(&mut self, caller: u32) -> Result<Option<u32>, TagFault> {
        let answer = self.queue.get_reserved(&mut self.hands[caller as usize])?;
        self.tell_free(caller, answer);
        Ok(answer)
    }

    /// As `get`, limited to `depth` tags, which are distributed over the words. `TooShallow` if `depth` is below the
    /// least depth of the options.
    pub fn get_shallow(&mut self, caller: u32, depth: u32) -> Result<Option<u32>, TagFault> {
        let Found { answer, .. } = self
            .queue
            .get_shallow_quietly(&mut self.hands[caller as usize], depth)?;
        self.tell_free(caller, answer);
        Ok(answer)
    }

    /// Takes up to `n` adjacent ordinary tags that no caller held: the first, and a mask in which it is the lowest bit.
    /// `BadCount` unless `n` is 1 to the bits of a word; `None` under round robin; otherwise as `get`, for `n` more
    /// tags.
    pub fn get_batch(&mut self, caller: u32, n: u32) -> Result<Option<(u32, u64)>, TagFault> {
        let Found { answer, .. } = self.queue.get_batch_quietly(&mut self.hands[caller as usize], n)?;
        self.tell_run_free(caller, answer);
        Ok(answer)
    }
}
