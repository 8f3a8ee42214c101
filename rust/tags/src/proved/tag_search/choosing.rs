// Made of crates/tag_search/src/choosing.rt, where the contracts are, by rust/generate.

//! Gets over plain words. No other caller steps, so the answer is always the choice.

use crate::proved::tag_search::hint::Hint;
use crate::proved::tag_search::plain::PlainPort;
use crate::proved::tag_search::search::{get, get_batch, get_shallow};

impl PlainPort {
    /// Takes a free tag, or else one set aside, of the first word from the hint on that has one. `None` if no word has.
    #[inline]
    pub fn choose(&mut self, hint: &mut Hint) -> Option<u32> {
        let Ok(answer) = get(self, hint) else { unreachable!() };
        answer
    }

    /// As `choose`, limited to `depth` tags, which are distributed over the words.
    #[inline]
    pub fn choose_shallow(&mut self, hint: &mut Hint, depth: u32) -> Option<u32> {
        let Ok(answer) = get_shallow(self, hint, depth) else {
            unreachable!()
        };
        answer
    }

    /// Takes those of `n` adjacent tags that are free or set aside, in the first word from the hint on that has `n`
    /// places from its first such tag on. Returns that tag and the mask of those taken, whose lowest bit is that tag.
    /// Under round robin it takes none.
    #[inline]
    pub fn choose_batch(&mut self, hint: &mut Hint, n: u32) -> Option<(u32, u64)> {
        let Ok(answer) = get_batch(self, hint, n) else {
            unreachable!()
        };
        answer
    }
}
