// Made of crates/tag_pool/src/gather/together.rt, where the contracts are, by rust/generate.

//! Gathers hands one after another.

use crate::proved::step_ledger::Gather;
use crate::proved::tag_core::Gathering;
use crate::proved::tag_pool::hand::Hand;
use crate::proved::tag_pool::pool::Pool;

/// The hands gathered so far, as the callers of each set.
pub struct Together<R> {
    pub(crate) reserved: Gathering<R>,
    pub(crate) ordinary: Gathering<R>,
}

impl<R> Gather for Pool<R> {
    type Member = Hand<R>;

    type Gathering = Together<R>;

    #[inline]
    fn take_first(&self, hand: Hand<R>) -> Together<R> {
        let Hand {
            reserved_count: _,
            reserved,
            ordinary,
        } = hand;
        Together {
            reserved: self.reserved.start_gathering(reserved.into_caller()),
            ordinary: self.ordinary.start_gathering(ordinary.into_caller()),
        }
    }

    #[inline]
    fn take_next(&self, together: &mut Together<R>, hand: Hand<R>) {
        let Hand {
            reserved_count: _,
            reserved,
            ordinary,
        } = hand;
        together.reserved.add(&self.reserved, reserved.into_caller());
        together.ordinary.add(&self.ordinary, ordinary.into_caller());
    }
}
