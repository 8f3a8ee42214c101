// Made of crates/tag_bell/src/settling.rt, where the contracts are, by rust/generate.

//! How a caller that was told, and does not need the tag that it was told of, sees to all tags.

use crate::proved::tag_bell::telling::{finds_waiters, see_to};
use crate::proved::tag_bell::told::Told;
use crate::proved::tag_core::{Caller, Map};

/// Sees to all that the caller has to see to, after it was told and got up, and won another tag or gave up. Where
/// somebody waits it goes through the words, and if it sees a free tag it tells one caller of each kind. Returns those
/// told.
#[inline]
pub fn settle<R>(map: &Map<R>, caller: &mut Caller<R>) -> Told {
    if !finds_waiters(map, caller) {
        return Told::none();
    }
    look_through(map, caller)
}

/// Looks for a free tag, and tells one caller of each kind if it sees one. A word without one needs no telling: the
/// looks show it.
#[inline]
fn look_through<R>(map: &Map<R>, caller: &mut Caller<R>) -> Told {
    for word in 0..map.layout().words() {
        if has_free(map, caller, word) {
            return see_to(map, caller, 1);
        }
    }
    Told::none()
}

/// Returns whether it sees a free tag in a word or in its cleared set. Two looks.
#[inline]
fn has_free<R>(map: &Map<R>, caller: &mut Caller<R>, word: u32) -> bool {
    let usable = map.layout().usable(word);
    let taken = map.look(caller, word);
    let aside = map.look_aside(caller, word);
    if aside & usable != 0 {
        return true;
    }
    if taken & usable != usable {
        return true;
    }
    false
}
