// Made of crates/tag_search/src/all_places.rt, where the contracts are, by rust/generate.

//! The plain search without round robin, in which every place of each word is allowed.

use crate::proved::tag_layout::Layout;
use crate::proved::tag_search::pass::{pass_after, retry_keeping, Missed, TURNS};
use crate::proved::tag_search::port::Port;
use crate::proved::tag_search::rank::Rank;
use crate::proved::tag_search::scan::Scan;

/// Returns all places of a word, in increasing order.
#[inline]
pub fn all_places(layout: Layout, word: u32) -> Rank {
    Rank::new(0, layout.word_depth(word), true)
}

/// Visits all words in cyclic order from `first`, until a visit wins a tag, after a first try that won nothing.
#[inline(always)]
pub fn search_after<P: Port>(port: &mut P, layout: Layout, first: u32, missed: Missed) -> Option<u32> {
    match pass_after(port, first, missed) {
        Some(place) => Some(layout.tag_at(first, place)),
        None => search_on(port, layout, first),
    }
}

/// Continues the search after a pass over the first word that won nothing.
#[inline(always)]
fn search_on<P: Port>(port: &mut P, layout: Layout, first: u32) -> Option<u32> {
    match retry_keeping(port, first, all_places(layout, first), TURNS) {
        Some(place) => Some(layout.tag_at(first, place)),
        None => search_others(port, layout, first),
    }
}

/// Visits the words after the first, and then those before it.
#[inline]
fn search_others<P: Port>(port: &mut P, layout: Layout, first: u32) -> Option<u32> {
    let scan = Scan::of_words(layout, first);
    match scan.visit_between(port, first + 1, layout.words()) {
        Some(tag) => Some(tag),
        None => scan.visit_between(port, 0, first),
    }
}
