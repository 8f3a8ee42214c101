// Made of crates/tag_cache/src/numbers.rt, where the contracts are, by rust/generate.

//! A cache's number among the hands.

use crate::proved::step_ledger::Numbered;
use crate::proved::tag_cache::cache::Cache;

impl<R> Numbered for Cache<R> {
    #[inline]
    fn number(&self) -> u32 {
        self.hand.number()
    }
}
