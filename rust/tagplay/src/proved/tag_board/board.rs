// Made of crates/tag_board/src/board.rt, where the contracts are, by rust/generate.

//! The board of a script.

use crate::base::vec::Vec;
use crate::proved::tag_queue::{Queue, QueueHand};

/// A queue and all its hands: the hand at index `n` is caller `n`.
pub struct Board {
    pub(crate) queue: Queue<u64>,
    /// One hand per caller, in the order of their numbers.
    pub(crate) hands: Vec<QueueHand<u64>>,
    /// Number of tags in both sets, at most 10,240.
    pub(crate) total: u32,
    /// Number of reserved tags, the lowest of the range, at most `total`.
    pub(crate) reserved: u32,
}
