// Made of crates/tag_core/src/meets.rt, where the contracts are, by rust/generate.

use crate::proved::tag_core::caller::Caller;
use crate::proved::tag_core::map::Map;
use crate::proved::tag_core::spots::SPARE;

impl<R> Map<R> {
    /// Establishes that two callers hold no tag in common.
    #[inline]
    pub fn meet(&self, first: &mut Caller<R>, second: &mut Caller<R>) {
        let table = &self.table.shared;
        let mut both = table.split_seat(&mut first.seat);
        let other = table.split_seat(&mut second.seat);
        table.join_seat(&mut both, other);
        table.load(&mut both, SPARE);
        let one = table.split_seat(&mut both);
        table.join_seat(&mut first.seat, one);
        table.join_seat(&mut second.seat, both);
    }

    /// Establishes that the second caller doesn't hold a tag that the first holds. It makes no load: the second's own mask
    /// doesn't have the tag, since two callers that both held it could not meet.
    #[inline]
    pub fn apart(&self, first: &mut Caller<R>, second: &mut Caller<R>, tag: u32) {
        if second.holds(tag) {
            self.meet(first, second);
            unreachable!()
        }
    }
}
