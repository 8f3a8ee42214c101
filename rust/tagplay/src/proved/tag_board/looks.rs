// Made of crates/tag_board/src/looks.rt, where the contracts are, by rust/generate.

//! Commands that list and count busy tags.

use crate::base::vec::{AllocError, Global, Vec};
use crate::proved::tag_board::board::Board;
use crate::proved::tag_queue::{Kind, Shown};

impl Board {
    /// Returns a bit for each tag, 1 for a busy one: tag `t` is the bit `t % 64` of the word `t / 64`.
    pub fn busy(&mut self, alloc: Global, caller: u32) -> Result<Vec<u64>, AllocError> {
        let mut bits = Vec::filled(alloc, 0u64, self.total.div_ceil(64) as usize)?;
        self.queue.busy(&mut self.hands[caller as usize], &mut bits);
        Ok(bits)
    }

    /// Returns the sizes of a set, and how many of its tags are busy and how many set aside.
    pub fn show(&mut self, caller: u32, kind: Kind) -> Shown {
        self.queue.show(&mut self.hands[caller as usize], kind)
    }

    /// Returns a bit for each tag of a set, 1 for a busy one, eight per byte, low bit first.
    pub fn dump(&mut self, alloc: Global, caller: u32, kind: Kind) -> Result<Vec<u8>, AllocError> {
        let depth = self.depth(kind);
        let mut bytes = Vec::filled(alloc, 0u8, depth.div_ceil(8) as usize)?;
        self.queue.dump(&mut self.hands[caller as usize], kind, &mut bytes);
        Ok(bytes)
    }

    /// Returns the number of tags of a set.
    fn depth(&self, kind: Kind) -> u32 {
        match kind {
            Kind::Ordinary => self.total - self.reserved,
            Kind::Reserved => self.reserved,
        }
    }
}
