// Made of crates/tag_pool/src/kind.rt, where the contracts are, by rust/generate.

//! The two sets, and which of them a tag is in.

use crate::proved::tag_pool::fault::TagFault;
use crate::proved::tag_pool::hand::Hand;
use crate::proved::tag_pool::pool::Pool;

/// The two kinds of tags: ordinary ones, and those reserved for requests that must not wait behind others.
#[derive(Clone, Copy, Debug, PartialEq, Eq)]
pub enum Kind {
    /// After the reserved tags in the range. Only these have shallow gets and batches.
    Ordinary,
    /// The first tags of the range. Who waits for one waits beside those that wait for ordinary tags, and is told of reserved
    /// tags alone.
    Reserved,
}

impl<R: Copy> Pool<R> {
    /// Returns the kind that a tag of this number has. This makes no step.
    #[inline]
    pub fn kind(&self, tag: u32) -> Kind {
        if tag < self.reserved_count {
            Kind::Reserved
        } else {
            Kind::Ordinary
        }
    }

    /// Returns the kind of a tag. `NoSuchTag` means that the number is not below the total. This makes no step and needs no
    /// hand.
    #[inline]
    pub fn find(&self, tag: u32) -> Result<Kind, TagFault> {
        if tag >= self.total {
            return Err(TagFault::NoSuchTag);
        }
        Ok(self.kind(tag))
    }

    /// Returns the kind of a held tag. `NoSuchTag` means that the number is not below the total, `NotHeld` that the hand does
    /// not hold the tag. This makes no step.
    #[inline]
    pub fn find_held(&self, hand: &Hand<R>, tag: u32) -> Result<Kind, TagFault> {
        let kind = self.find(tag)?;
        if !hand.holds_past(self.reserved_count, tag) {
            return Err(TagFault::NotHeld);
        }
        Ok(kind)
    }
}
