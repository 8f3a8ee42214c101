// Made of crates/tag_layout/src/batch.rt, where the contracts are, by rust/generate.

//! How many completions make a batch.

use crate::proved::tag_layout::layout::Layout;

/// The least and the greatest batch.
const FEWEST: u32 = 1;

const MOST: u32 = 8;

impl Layout {
    /// Number of completions that are charged together, 1 to 8: an eighth of the depth, or of the least shallow depth
    /// if that is less. `None` means that there is no least shallow depth. It is one of the whole map; in Linux 6.12
    /// `sbq_calc_wake_batch` (lib/sbitmap.c) takes it for each word.
    #[inline]
    pub fn wake_batch(self, min_shallow: Option<u32>) -> u32 {
        let least = match min_shallow {
            Some(shallow) => shallow.min(self.depth()),
            None => self.depth(),
        };
        (least / 8).min(MOST).max(FEWEST)
    }
}
