// Made of crates/tag_pool/src/pool.rt, where the contracts are, by rust/generate.

//! Two sets of tags in one range of numbers.

use crate::proved::tag_core::Map;
use crate::proved::tag_pool::kind::Kind;

/// Two sets of tags, each with a slot, shared by up to 64 hands without a lock. The reserved tags are the first of the
/// range, and the ordinary ones follow.
pub struct Pool<R> {
    pub(crate) reserved: Map<R>,
    pub(crate) ordinary: Map<R>,
    /// Number of reserved tags.
    pub(crate) reserved_count: u32,
    /// Number of tags in both sets together, at most 10,240.
    pub(crate) total: u32,
    /// The minimum shallow depth in force, at least 1.
    pub(crate) shallowest: u32,
    /// The initial value of each slot, also after a resize.
    pub(crate) fill: R,
}

impl<R> Pool<R> {
    /// Returns the number of tags in both sets together, at most 10,240.
    #[inline]
    pub fn depth(&self) -> u32 {
        self.total
    }

    /// Returns the number of reserved tags, which are the first of the range.
    #[inline]
    pub fn reserved(&self) -> u32 {
        self.reserved_count
    }

    /// Returns the map of a set.
    #[inline(always)]
    pub(crate) fn map(&self, kind: Kind) -> &Map<R> {
        match kind {
            Kind::Ordinary => &self.ordinary,
            Kind::Reserved => &self.reserved,
        }
    }
}
