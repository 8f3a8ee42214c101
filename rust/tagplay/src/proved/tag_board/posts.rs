// Made of crates/tag_board/src/posts.rt, where the contracts are, by rust/generate.

//! Commands that pass a tag from one caller to another.

use crate::proved::tag_board::board::Board;
use crate::proved::tag_queue::TagFault;

impl Board {
    /// Hands a held tag on, to whichever caller takes it first. `NoSuchTag` for a tag past the last, `NotHeld` for one
    /// that the caller does not hold.
    pub fn post(&mut self, caller: u32, tag: u32) -> Result<(), TagFault> {
        self.queue.post(&mut self.hands[caller as usize], tag)
    }

    /// Takes a posted tag, which no caller held. `NoSuchTag` for a tag past the last, `NotPosted` if the call did not
    /// find it posted.
    pub fn take(&mut self, caller: u32, tag: u32) -> Result<(), TagFault> {
        self.queue.take(&mut self.hands[caller as usize], tag)?;
        self.tell_free(caller, Some(tag));
        Ok(())
    }
}
