// Made of crates/tag_search/src/scan.rt, where the contracts are, by rust/generate.

//! The visits of a search over all words, in the order of lib/sbitmap.c.

use crate::proved::tag_layout::Layout;
use crate::proved::tag_search::pass::{visit, TURNS};
use crate::proved::tag_search::place::place_in_word;
use crate::proved::tag_search::port::Port;
use crate::proved::tag_search::rank::Rank;

/// Where a search begins, and which places of each word it may take.
#[derive(Clone, Copy)]
pub struct Scan {
    /// The layout of the map.
    pub layout: Layout,
    /// Index of the word that is visited first.
    pub first: u32,
    /// Place at which the visit of the first word begins, 0 to 63. Every other visit begins at 0.
    pub start: u32,
    /// Depth of a shallow search, in tags of the whole map. `None` allows every place of each word.
    pub shallow: Option<u32>,
    /// Whether the places before `start` follow those after it.
    pub wrap: bool,
}

impl Scan {
    /// Returns the scan of a plain search from a hint below the depth, or 0 if there are no tags.
    #[inline]
    pub fn plain(layout: Layout, round_robin: bool, from: u32) -> Scan {
        Scan {
            layout,
            first: from >> layout.shift(),
            start: if round_robin { place_in_word(layout, from) } else { 0 },
            shallow: None,
            wrap: !round_robin,
        }
    }

    /// Returns the scan of whole words from `first` on.
    #[inline]
    pub fn of_words(layout: Layout, first: u32) -> Scan {
        Scan {
            layout,
            first,
            start: 0,
            shallow: None,
            wrap: true,
        }
    }

    /// Returns the scan of a search of this depth from a hint below the map's depth, or 0 if there are no tags.
    #[inline]
    pub fn shallow(layout: Layout, depth: u32, from: u32) -> Scan {
        Scan {
            layout,
            first: from >> layout.shift(),
            start: place_in_word(layout, from),
            shallow: Some(depth),
            wrap: true,
        }
    }

    /// Returns the places of a word that may be taken, in order.
    #[inline]
    fn rank(&self, word: u32) -> Rank {
        let start = if word == self.first { self.start } else { 0 };
        Rank::new(start, self.limit(word), self.wrap)
    }

    /// Returns the number of turns of a word's visit.
    #[inline]
    fn turns(&self, word: u32) -> u32 {
        if word == self.first {
            TURNS
        } else {
            1
        }
    }

    /// Returns the number of places of a word that may be taken.
    #[inline]
    fn limit(&self, word: u32) -> u32 {
        let depth = self.layout.word_depth(word);
        match self.shallow {
            None => depth,
            Some(shallow) => self.layout.shallow_limit(word, shallow),
        }
    }

    /// Visits the words `from .. end`, until a visit wins a tag.
    #[inline]
    pub fn visit_between<P: Port>(&self, port: &mut P, from: u32, end: u32) -> Option<u32> {
        for word in from..end {
            if let Some(place) = visit(port, word, self.rank(word), self.turns(word)) {
                return Some(self.layout.tag_at(word, place));
            }
        }
        None
    }

    /// Visits all words in cyclic order, until a visit wins a tag.
    #[inline]
    pub fn search<P: Port>(&self, port: &mut P) -> Option<u32> {
        match self.visit_between(port, self.first, self.layout.words()) {
            Some(tag) => Some(tag),
            None => self.visit_between(port, 0, self.first),
        }
    }
}
