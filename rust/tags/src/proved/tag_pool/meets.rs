// Made of crates/tag_pool/src/meets.rt, where the contracts are, by rust/generate.

use crate::proved::tag_core::Map;
use crate::proved::tag_pool::hand::Hand;
use crate::proved::tag_pool::pool::Pool;
use crate::proved::tag_pool::side::Side;

impl<R: Copy> Pool<R> {
    /// It changes nothing. Its loads, of a spare word of each set, are in no hand's list.
    #[inline]
    pub fn meet(&self, first: &mut Hand<R>, second: &mut Hand<R>) {
        first.reserved.meet(&mut second.reserved, &self.reserved);
        first.ordinary.meet(&mut second.ordinary, &self.ordinary);
    }

    /// Establishes that the second hand does not hold a tag that the first one holds. This makes no step.
    #[inline]
    pub fn apart(&self, first: &mut Hand<R>, second: &mut Hand<R>, tag: u32) {
        if tag < self.reserved_count {
            first.reserved.apart(&mut second.reserved, &self.reserved, tag)
        } else {
            let number = tag - self.reserved_count;
            first.ordinary.apart(&mut second.ordinary, &self.ordinary, number)
        }
    }
}

impl<R: Copy> Side<R> {
    #[inline]
    fn meet(&mut self, other: &mut Side<R>, map: &Map<R>) {
        map.meet(&mut self.caller, &mut other.caller);
    }

    /// Establishes that the other side does not hold a tag that this one holds.
    #[inline]
    fn apart(&mut self, other: &mut Side<R>, map: &Map<R>, number: u32) {
        map.apart(&mut self.caller, &mut other.caller, number);
    }
}
