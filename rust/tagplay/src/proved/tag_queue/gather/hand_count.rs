// Made of crates/tag_queue/src/gather/hand_count.rt, where the contracts are, by rust/generate.

//! Establishes that no more hands were passed in than the queue was opened for.

use crate::base::vec::Vec;
use crate::proved::step_ledger::Numbered;
use crate::proved::tag_queue::hand::QueueHand;
use crate::proved::tag_queue::queue::Queue;

/// Returns the indexes of two hands with the same number, the lower one first, or `None` if all numbers differ.
fn find_same_number<R>(hands: &[QueueHand<R>]) -> Option<(usize, usize)> {
    for second in 0..hands.len() {
        for first in 0..second {
            if hands[first].number() == hands[second].number() {
                return Some((first, second));
            }
        }
    }
    None
}

impl<R> Queue<R> {
    /// Returns the number of hands, 1 to 64.
    pub(crate) fn hand_count(&self) -> u32 {
        self.room.count
    }
}

impl<R: Copy> Queue<R> {
    /// Establishes that there are at most as many hands as the queue was opened for, by one comparison.
    pub(crate) fn assert_hand_count(&self, mut hands: Vec<QueueHand<R>>) -> Vec<QueueHand<R>> {
        if hands.len() <= self.hand_count() as usize {
            return hands;
        }
        // More hands than numbers: two would have the same number, and `meet` shows that they differ.
        let Some((first, second)) = find_same_number(hands.as_slice()) else {
            unreachable!()
        };
        // The later one first, so that the earlier index still holds.
        let mut later = hands.remove(second);
        let mut earlier = hands.remove(first);
        self.meet(&mut earlier, &mut later);
        unreachable!()
    }
}
