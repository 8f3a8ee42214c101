// Made of crates/tag_model/src/entries.rt, where the contracts are, by rust/generate.

//! Where each tag is, and where an event is about to bring it.

use crate::base::vec::{AllocError, Global, Vec};
use crate::proved::tag_layout::Layout;
use crate::proved::tag_model::event::Event;
use crate::proved::tag_model::place::Place;

/// Two entries for each tag, of which a bit of the tag's word says which counts. An event makes its places ready in the
/// others, as it tests its tags; then it turns the bits of its word, all at once. So a fault has nothing to undo, and an
/// event visits no tag twice.
pub(crate) struct Entries {
    layout: Layout,
    /// The entries that count where the tag's bit is 0, in the order of the tags.
    even: Vec<Place>,
    /// Those that count where it is 1.
    odd: Vec<Place>,
    /// A bit for each tag, by words.
    turned: Vec<u64>,
}

impl Entries {
    /// Entries of a layout's tags, all of which are free.
    #[inline]
    pub(crate) fn open(alloc: Global, layout: Layout) -> Result<Entries, AllocError> {
        Ok(Entries {
            layout,
            even: Vec::filled(alloc, Place::Free, layout.depth() as usize)?,
            odd: Vec::filled(alloc, Place::Free, layout.depth() as usize)?,
            turned: Vec::filled(alloc, 0, layout.words() as usize)?,
        })
    }

    /// The layout of the tags.
    #[inline]
    pub(crate) fn layout(&self) -> Layout {
        self.layout
    }

    /// Where the tag is.
    #[inline]
    pub(crate) fn place(&self, tag: u32) -> Place {
        let at = tag as usize;
        if is_turned(&self.turned, self.layout, tag) {
            self.odd[at]
        } else {
            self.even[at]
        }
    }

    /// How many tags are held.
    #[inline]
    pub(crate) fn held(&self) -> u64 {
        let mut held = 0u64;
        for tag in 0..self.layout().depth() {
            if self.place(tag).is_held() {
                held += 1;
            }
        }
        held
    }

    /// How many tags are posted.
    #[inline]
    pub(crate) fn posted(&self) -> u64 {
        let mut posted = 0u64;
        for tag in 0..self.layout().depth() {
            if self.place(tag).is_posted() {
                posted += 1;
            }
        }
        posted
    }

    /// Brings the tags that the event names to their new places, if each of them is where the event needs it.
    #[inline]
    pub(crate) fn bring(&mut self, event: Event) -> bool {
        if !self.prepare(event) {
            return false;
        }
        if let Some((word, mask)) = event.mask(self.layout()) {
            self.turn(word, mask);
        }
        true
    }

    /// Tests the tags that the event names one after another, and makes the next place of each ready.
    #[inline]
    fn prepare(&mut self, event: Event) -> bool {
        let layout = self.layout();
        let span = event.span(layout);
        for tag in span.start..span.end {
            if event.names(layout, tag) {
                let place = self.place(tag);
                if !event.accepts(place) {
                    return false;
                }
                self.make_ready(tag, event.brings(place));
            }
        }
        true
    }

    /// Writes the tag's entry that doesn't count.
    #[inline]
    fn make_ready(&mut self, tag: u32, place: Place) {
        let at = tag as usize;
        if is_turned(&self.turned, self.layout, tag) {
            self.even[at] = place;
        } else {
            self.odd[at] = place;
        }
    }

    /// Makes what is ready for the tags of the mask count, all at once.
    #[inline]
    fn turn(&mut self, word: u32, mask: u64) {
        let at = word as usize;
        let turned = self.turned[at] ^ mask;
        self.turned[at] = turned;
    }
}

/// Whether the tag's odd entry counts.
#[inline]
fn is_turned(turned: &[u64], layout: Layout, tag: u32) -> bool {
    (turned[layout.word_of(tag) as usize] >> layout.place_of(tag)) & 1 == 1
}
