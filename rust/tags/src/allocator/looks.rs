//! Reports.

use crate::allocator::way::{by_way, Way};
use crate::allocator::Core;
use crate::error::{Error, Result};
use crate::options::{Kind, Sizes};
use crate::proved::tag_pool::{self, Shown};

impl From<Kind> for tag_pool::Kind {
    fn from(kind: Kind) -> tag_pool::Kind {
        match kind {
            Kind::Ordinary => tag_pool::Kind::Ordinary,
            Kind::Reserved => tag_pool::Kind::Reserved,
        }
    }
}

impl From<tag_pool::Kind> for Kind {
    fn from(kind: tag_pool::Kind) -> Kind {
        match kind {
            tag_pool::Kind::Ordinary => Kind::Ordinary,
            tag_pool::Kind::Reserved => Kind::Reserved,
        }
    }
}

impl From<Shown> for Sizes {
    fn from(shown: Shown) -> Sizes {
        Sizes {
            depth: shown.depth,
            busy: shown.busy,
            cleared: shown.cleared,
            bits_per_word: shown.bits_per_word,
            words: shown.map_nr,
        }
    }
}

impl Core {
    /// The set of a tag.
    pub fn kind(&self, number: u32) -> Kind {
        self.tags.kind(number).into()
    }

    /// Whether a slice has a bit for each tag.
    pub fn check_room(&self, into: &[u64]) -> Result<()> {
        if self.tags.depth().div_ceil(64) as usize > into.len() {
            return Err(Error::TooSmall);
        }
        Ok(())
    }

    /// Whether the pool has such a tag.
    pub fn check_number(&self, number: u32) -> Result<()> {
        if number >= self.tags.depth() {
            return Err(Error::NoSuchTag);
        }
        Ok(())
    }
}

impl Way {
    pub fn busy(&mut self, core: &Core, into: &mut [u64]) -> Result<u32> {
        core.check_room(into)?;
        let tags = &core.tags;
        Ok(by_way!(self, hand => tags.busy(hand, into), cache => cache.busy(tags, into)))
    }

    pub fn show(&mut self, core: &Core, kind: Kind) -> Sizes {
        let (tags, kind) = (&core.tags, kind.into());
        by_way!(self, hand => tags.show(hand, kind), cache => cache.show(tags, kind)).into()
    }

    pub fn holds(&mut self, core: &Core, number: u32) -> Result<bool> {
        core.check_number(number)?;
        Ok(by_way!(self, hand => hand.holds(number), cache => cache.holds(number)))
    }
}
