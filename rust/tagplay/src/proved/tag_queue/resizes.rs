// Made of crates/tag_queue/src/resizes.rt, where the contracts are, by rust/generate.

//! Resizes the ordinary set of a queue to another number of tags.

use crate::base::vec::{Global, Vec};
use crate::proved::step_ledger::least_missing;
use crate::proved::tag_pool::{Hand, Kind, Pool, PoolResizeFault, ResizeCause};
use crate::proved::tag_queue::hand::QueueHand;
use crate::proved::tag_queue::queue::Queue;
use crate::proved::tag_queue::room::Room;
use crate::proved::wake_book::Groups;

/// The reason why `resize` failed, with the queue and the hands that were passed in.
pub struct QueueResizeFault<R> {
    /// `Waiting` counts the hands that are in a wait group.
    pub cause: ResizeCause,
    pub queue: Queue<R>,
    /// In the order in which they were passed in.
    pub hands: Vec<QueueHand<R>>,
}

impl<R: Copy> Queue<R> {
    /// Resizes the ordinary set so that there are `depth` tags in both sets, and moves all hands to it, as
    /// `Pool::resize` does; the batch is that of the new ordinary set. All hands must be passed in, in any order; no tag
    /// of either set may be held or posted, and no hand may be in a wait group. A refusal hands everything back.
    pub fn resize(
        alloc: Global,
        queue: Queue<R>,
        hands: Vec<QueueHand<R>>,
        depth: u32,
    ) -> Result<(Queue<R>, Vec<QueueHand<R>>), QueueResizeFault<R>> {
        let hands = queue.assert_hand_count(hands);
        if let Some(number) = least_missing(hands.as_slice(), queue.hand_count()) {
            return Err(QueueResizeFault {
                cause: ResizeCause::Missing(number),
                queue,
                hands,
            });
        }
        queue.go_on(alloc, hands, depth)
    }

    /// Resizes the queue while all its hands are present.
    fn go_on(
        self,
        alloc: Global,
        mut hands: Vec<QueueHand<R>>,
        depth: u32,
    ) -> Result<(Queue<R>, Vec<QueueHand<R>>), QueueResizeFault<R>> {
        let standing = count_standing(hands.as_slice()) as u32;
        let Queue {
            pool,
            mut book,
            groups,
            batch,
            min_shallow,
            room,
        } = self;
        let count = room.count;
        let (inners, shells) = room.part(&mut hands);
        match resize_pool(alloc, pool, inners, depth, standing) {
            Ok((pool, inners)) => {
                let batch = pool.layout(Kind::Ordinary).wake_batch(min_shallow);
                book.rebatch(batch);
                let queue = Queue {
                    pool,
                    book,
                    groups,
                    batch,
                    min_shallow,
                    room: Room::unite(inners, shells, &mut hands, count),
                };
                Ok((queue, hands))
            }
            Err(fault) => {
                let PoolResizeFault {
                    cause,
                    pool,
                    hands: inners,
                } = fault;
                let queue = Queue {
                    pool,
                    book,
                    groups,
                    batch,
                    min_shallow,
                    room: Room::unite(inners, shells, &mut hands, count),
                };
                Err(QueueResizeFault { cause, queue, hands })
            }
        }
    }
}

/// Resizes the pool, unless hands stand in wait groups: that many of them refuse it, after tags in use.
fn resize_pool<R: Copy>(
    alloc: Global,
    pool: Pool<R>,
    mut hands: Vec<Hand<R>>,
    depth: u32,
    standing: u32,
) -> Result<(Pool<R>, Vec<Hand<R>>), PoolResizeFault<R>> {
    if standing == 0 {
        return Pool::resize(alloc, pool, hands, depth);
    }
    let cause = match pool.check_resize(&mut hands, depth) {
        Err(ResizeCause::Missing(number)) => ResizeCause::Missing(number),
        Err(ResizeCause::DepthTooLarge) => ResizeCause::DepthTooLarge,
        Err(ResizeCause::InUse(held, posted)) => ResizeCause::InUse(held, posted),
        Err(ResizeCause::Waiting(_)) => ResizeCause::Waiting(standing),
        Err(ResizeCause::Memory) => ResizeCause::Waiting(standing),
        Ok(()) => ResizeCause::Waiting(standing),
    };
    Err(PoolResizeFault { cause, pool, hands })
}

/// Returns how many of these hands are in a wait group.
fn count_standing<R>(hands: &[QueueHand<R>]) -> usize {
    hands
        .iter()
        .filter(|hand| Groups::standing(&hand.waiter).is_some())
        .count()
}
