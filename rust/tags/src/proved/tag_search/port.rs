// Made of crates/tag_search/src/port.rt, where the contracts are, by rust/generate.

//! The interface of a search to the words.

use crate::proved::tag_core::Claim;
use crate::proved::tag_layout::Layout;

/// One caller's access to the words of a map. Between two of its calls, other callers may change the words.
pub trait Port {
    /// Returns the layout of the map.
    fn layout(&self) -> Layout;

    /// Returns whether the caller may win `n` more tags.
    fn room(&self, n: u32) -> bool;

    /// Loads a word: 1 is taken.
    fn look(&mut self, word: u32) -> u64;

    /// Takes the tags of the mask that are free at that moment. The mask has `asked` bits, and there is room for so many.
    fn claim(&mut self, word: u32, mask: u64, asked: u32) -> Claim;

    /// Claims one place, for which there is room. If it was taken, returns the word as the claim found it.
    fn claim_one(&mut self, word: u32, place: u32) -> Result<(), u64>;

    /// Frees the tags of a word that were set aside, and returns their mask.
    fn sweep(&mut self, word: u32) -> u64;

    /// Takes the tags of a word that were set aside, of which the least stays with the caller and the others become free.
    /// Returns its place. `None` if there were none.
    fn sweep_keeping(&mut self, word: u32) -> Option<u32>;
}
