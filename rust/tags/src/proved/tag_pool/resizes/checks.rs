// Made of crates/tag_pool/src/resizes/checks.rt, where the contracts are, by rust/generate.

//! Whether a resize would be refused, for whoever holds hands that wait elsewhere too.

use crate::base::vec::Vec;
use crate::proved::tag_pool::hand::Hand;
use crate::proved::tag_pool::pool::Pool;
use crate::proved::tag_pool::resizes::ResizeCause;

impl<R: Copy> Pool<R> {
    /// Returns `Ok` if nothing but memory can prevent a resize to `depth` tags, and otherwise why `resize` would refuse it.
    /// The hands are unchanged.
    #[inline]
    pub fn check_resize(&self, hands: &mut Vec<Hand<R>>, depth: u32) -> Result<(), ResizeCause> {
        match self.next_layout(hands, depth) {
            Ok(_) => Ok(()),
            Err(cause) => Err(cause),
        }
    }
}
