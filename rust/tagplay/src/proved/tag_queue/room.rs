// Made of crates/tag_queue/src/room.rt, where the contracts are, by rust/generate.

//! Takes hands apart into hands of the pool and shells, and puts them together again, in room reserved for it.

use crate::base::vec::{AllocError, Global, Vec};
use crate::proved::tag_pool::Hand;
use crate::proved::tag_queue::hand::QueueHand;
use crate::proved::wake_book::{Announcement, Sighting, Teller, Waiter};

/// A hand of a queue without its hand of the pool.
pub(crate) struct Shell<R> {
    pub(crate) teller: Teller,
    pub(crate) waiter: Waiter,
    pub(crate) sighting: Sighting<Hand<R>>,
    pub(crate) announcement: Announcement<Hand<R>>,
}

/// Room for the parts of all hands, reserved by `open`, so that taking hands apart never allocates.
pub(crate) struct Room<R> {
    pub(crate) inners: Vec<Hand<R>>,
    pub(crate) shells: Vec<Shell<R>>,
    /// Number of hands, 1 to 64.
    pub(crate) count: u32,
}

impl<R> Room<R> {
    /// Reserves room for the parts of `count` hands.
    pub(crate) fn open(alloc: Global, count: u32) -> Result<Room<R>, AllocError> {
        let inners = Vec::with_capacity(alloc, count as usize)?;
        let shells = Vec::with_capacity(alloc, count as usize)?;
        Ok(Room { inners, shells, count })
    }

    /// Takes the hands apart, in order. The hands' vector keeps its capacity.
    pub(crate) fn part(self, hands: &mut Vec<QueueHand<R>>) -> (Vec<Hand<R>>, Vec<Shell<R>>) {
        let Room {
            mut inners,
            mut shells,
            count: _,
        } = self;
        while let Some(hand) = hands.pop() {
            let QueueHand {
                teller,
                waiter,
                sighting,
                announcement,
                inner,
            } = hand;
            inners.push_reserved(inner);
            shells.push_reserved(Shell {
                teller,
                waiter,
                sighting,
                announcement,
            });
        }
        inners.reverse();
        shells.reverse();
        (inners, shells)
    }

    /// Puts hands together from these parts, in order. The vectors of the parts keep their capacity.
    pub(crate) fn unite(
        mut inners: Vec<Hand<R>>,
        mut shells: Vec<Shell<R>>,
        hands: &mut Vec<QueueHand<R>>,
        count: u32,
    ) -> Room<R> {
        while let Some(inner) = inners.pop() {
            let Some(shell) = shells.pop() else { unreachable!() };
            hands.push_reserved(shell.around(inner));
        }
        hands.reverse();
        Room { inners, shells, count }
    }
}

impl<R> Shell<R> {
    /// Puts a hand together from its hand of the pool and this shell.
    fn around(self, inner: Hand<R>) -> QueueHand<R> {
        let Shell {
            teller,
            waiter,
            sighting,
            announcement,
        } = self;
        QueueHand {
            teller,
            waiter,
            sighting,
            announcement,
            inner,
        }
    }
}
