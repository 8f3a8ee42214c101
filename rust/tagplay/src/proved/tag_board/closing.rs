// Made of crates/tag_board/src/closing.rt, where the contracts are, by rust/generate.

//! Closing a board.

use crate::proved::tag_board::board::Board;
use crate::proved::tag_model::Totals;
use crate::proved::tag_queue::Queue;

impl Board {
    /// Gathers all callers. Returns the totals over both sets: tags got, given back, held and posted. They balance.
    pub fn close(self) -> Totals {
        let Board {
            queue,
            hands,
            total: _,
            reserved: _,
        } = self;
        let Ok(totals) = Queue::gather(queue, hands) else {
            unreachable!()
        };
        totals.tags
    }
}
