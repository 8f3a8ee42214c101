// Made of crates/tag_script/src/clearing.rt, where the contracts are, by rust/generate.

//! Lists of tags that are given back at once.

use crate::proved::tag_pool::are_distinct;
use crate::proved::tag_search::{PlainPort, Port};

/// Returns whether each tag of the list is held, and the tags are distinct.
pub(crate) fn are_held_once(port: &PlainPort, tags: &[u32]) -> bool {
    for tag in tags {
        if !port.taken(*tag) {
            return false;
        }
    }
    are_distinct(tags)
}

/// Frees the tags of the list. Neighbours in the list that are in the same word take one step.
pub(crate) fn give_all(port: &mut PlainPort, tags: &[u32]) {
    let layout = port.layout();
    let mut word = layout.word_of(tags[0]);
    let mut mask = 0u64;
    for tag in tags {
        let here = layout.word_of(*tag);
        let bit = 1u64 << layout.place_of(*tag);
        if here == word {
            mask |= bit;
        } else {
            port.give(word, mask);
            word = here;
            mask = bit;
        }
    }
    port.give(word, mask);
}
