// Made of crates/tag_script/src/listing.rt, where the contracts are, by rust/generate.

//! The held tags, as a list and as bytes.

use crate::base::vec::{AllocError, Vec};
use crate::proved::tag_script::answer::{BusyTags, DumpBytes};
use crate::proved::tag_script::plain_caller::PlainCaller;

impl PlainCaller {
    /// Lists the tags that the caller holds, ascending.
    pub(crate) fn busy(&mut self) -> Result<BusyTags, AllocError> {
        let layout = self.layout();
        let mut tags = Vec::new(self.alloc());
        for word in 0..layout.words() {
            if !self.holds_any(word) {
                continue;
            }
            for place in 0..layout.word_depth(word) {
                let tag = layout.tag_at(word, place);
                if self.holds(tag) {
                    tags.push(tag)?;
                }
            }
        }
        Ok(BusyTags::new(tags))
    }

    /// Returns a bit for each tag, 1 if it is held, eight to a byte, the lowest tag in bit 0 of the first byte.
    pub(crate) fn dump(&self) -> Result<DumpBytes, AllocError> {
        let mut bytes = Vec::new(self.alloc());
        for offset in 0..self.layout().depth().div_ceil(8) {
            bytes.push(self.held_byte(offset))?;
        }
        Ok(DumpBytes::new(bytes))
    }

    /// The bits of eight tags, the first in bit 0.
    fn held_byte(&self, offset: u32) -> u8 {
        let mut byte = 0u8;
        for bit in 0..8 {
            if self.holds(8 * offset + bit) {
                byte += 1 << bit;
            }
        }
        byte
    }
}
