// Made of crates/tag_board/src/opens.rt, where the contracts are, by rust/generate.

//! Opening a board.

use crate::base::vec::Global;
use crate::proved::tag_board::board::Board;
use crate::proved::tag_queue::{Options, Queue, QueueOpenFault};

impl Board {
    /// Opens a board whose tags are all free, and each of whose callers may count up to `cap` completions, at most
    /// 2^56. Refused as `Queue::open` refuses: `TotalTooLarge`, `ReservedTooLarge`, `ShiftTooLarge`, `CallerCount`,
    /// `LifeTooLong`, `CapTooLarge`, and last `Memory`.
    pub fn open(alloc: Global, options: Options, cap: u64) -> Result<Board, QueueOpenFault> {
        let (queue, hands) = Queue::open(alloc, options, cap, 0u64)?;
        Ok(Board {
            queue,
            hands,
            total: options.depth,
            reserved: options.reserved,
        })
    }
}
