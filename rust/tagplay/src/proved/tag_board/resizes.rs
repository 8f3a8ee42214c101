// Made of crates/tag_board/src/resizes.rt, where the contracts are, by rust/generate.

//! Resizing a board.

use crate::base::vec::{AllocError, Global};
use crate::proved::tag_board::board::Board;
use crate::proved::tag_queue::{Queue, QueueResizeFault, ResizeCause};

impl Board {
    /// Continues with `total` tags, as many of them reserved as before, and with all callers. Returns the board with
    /// the answer; a refusal leaves it unchanged. If memory runs out, the board is lost.
    pub fn resize(self, alloc: Global, total: u32) -> Result<(Result<(), ResizeCause>, Board), AllocError> {
        let Board {
            queue,
            hands,
            total: before,
            reserved,
        } = self;
        match Queue::resize(alloc, queue, hands, total) {
            Ok((queue, hands)) => Ok((
                Ok(()),
                Board {
                    queue,
                    hands,
                    total,
                    reserved,
                },
            )),
            Err(QueueResizeFault { cause, queue, hands }) => match cause {
                ResizeCause::Memory => Err(AllocError),
                _ => {
                    let board = Board {
                        queue,
                        hands,
                        total: before,
                        reserved,
                    };
                    Ok((Err(cause), board))
                }
            },
        }
    }
}
