// Made of crates/tag_queue/src/gather.rt, where the contracts are, by rust/generate.

//! Gathers all hands and closes the queue.

use crate::base::vec::Vec;
use crate::proved::step_ledger::{all_there, GatherCause};
use crate::proved::tag_pool::{Pool, Totals};
use crate::proved::tag_queue::hand::QueueHand;
use crate::proved::tag_queue::queue::Queue;
use crate::proved::tag_queue::room::Shell;
use crate::proved::wake_book::{Book, BookTotals, GroupTotals, Groups, TellerGathering, WaiterGathering};

mod hand_count;

/// The totals of a queue, known once all its hands are gathered.
#[derive(Clone, Copy, Debug, PartialEq, Eq)]
pub struct QueueTotals {
    /// Tags won and given back since the queue was opened, over all its resizes, and tags now held and posted, all over
    /// both sets.
    pub tags: Totals,
    /// Completions counted and charged.
    pub book: BookTotals,
    /// Wakeups granted and used, and hands that still wait.
    pub groups: GroupTotals,
}

/// The reason why `gather` failed, with the queue and the hands that were passed in.
pub struct QueueGatherFault<R> {
    pub cause: GatherCause,
    pub queue: Queue<R>,
    /// In the order in which they were passed in.
    pub hands: Vec<QueueHand<R>>,
}

impl<R: Copy> Queue<R> {
    /// Closes the queue and returns its totals, if all its hands are passed in, in any order, even those that are in a
    /// wait group or hold tags. Otherwise it names the least missing number and hands everything back.
    pub fn gather(queue: Queue<R>, hands: Vec<QueueHand<R>>) -> Result<QueueTotals, QueueGatherFault<R>> {
        if let Err(cause) = all_there(&hands, queue.hand_count()) {
            return Err(QueueGatherFault { cause, queue, hands });
        }
        Ok(queue.close(hands))
    }

    /// Closes the queue with all its hands.
    fn close(self, hands: Vec<QueueHand<R>>) -> QueueTotals {
        let mut hands = self.assert_hand_count(hands);
        let Queue {
            pool,
            book,
            groups,
            room,
            ..
        } = self;
        let (inners, shells) = room.part(&mut hands);
        let Ok(tags) = Pool::gather(pool, inners) else {
            unreachable!()
        };
        let (tellers, waiters) = gather_shells(&book, &groups, shells);
        QueueTotals {
            tags,
            book: book.finish(tellers),
            groups: groups.finish(waiters),
        }
    }
}

/// Gathers the tellers and the waiters of these shells, from the last to the first.
fn gather_shells<R>(book: &Book, groups: &Groups, mut shells: Vec<Shell<R>>) -> (TellerGathering, WaiterGathering) {
    let Some(Shell { teller, waiter, .. }) = shells.pop() else {
        unreachable!()
    };
    let mut tellers = book.start_gathering(teller);
    let mut waiters = groups.start_gathering(waiter);
    while let Some(Shell { teller, waiter, .. }) = shells.pop() {
        tellers.add(book, teller);
        waiters.add(groups, waiter);
    }
    (tellers, waiters)
}
