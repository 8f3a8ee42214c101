// Made of crates/tag_model/src/event.rt, where the contracts are, by rust/generate.

//! What can happen to tags, and why it can't.

use crate::proved::tag_layout::Layout;
use crate::proved::tag_model::masks::{is_in_mask, is_mask_of, mask_of, tags_of};
use crate::proved::tag_model::place::Place;
use core::ops::Range;

/// One change that happened, by a caller. A mask has a 1 for each tag of its word that the event names.
#[derive(Clone, Copy, Debug, PartialEq, Eq)]
pub enum Event {
    /// Nothing changes.
    Look,
    /// The caller wins tags of a word, all of them free: those whose bits are 1 in the mask.
    Win(u32, u32, u64),
    /// The caller sets a tag that it holds aside.
    Put(u32, u32),
    /// The caller frees tags that it holds: those of a word whose bits are 1 in the mask.
    Give(u32, u32, u64),
    /// The caller takes what is aside in a word.
    Sweep(u32, u32),
    /// The caller keeps tags that it swept of a word: those whose bits are 1 in the mask.
    Keep(u32, u32, u64),
    /// The caller frees what it swept of a word.
    Spill(u32, u32),
    /// The caller posts a tag that it holds.
    Post(u32, u32),
    /// The caller takes a posted tag.
    Take(u32, u32),
}

/// Why an event can't happen. The causes are looked at in the order in which they stand here.
#[derive(Clone, Copy, Debug, PartialEq, Eq)]
pub enum EventFault {
    /// It names a tag, a word or a bit of a mask that the layout does not have.
    NoSuchTag,
    /// No caller has this number.
    NoSuchCaller,
    /// Its caller would have won more than `MOST_WON` tags.
    Spent,
    /// It wins a tag that isn't free.
    NotFree,
    /// It puts, gives or posts a tag that its caller doesn't hold.
    NotHeld,
    /// It takes a tag that isn't posted.
    NotPosted,
    /// It keeps a tag that its caller has not swept.
    NotSwept,
}

impl Event {
    /// Who makes the event. A look is anybody's, so the first caller's.
    #[inline]
    pub(crate) fn caller(self) -> u32 {
        match self {
            Event::Look => 0,
            Event::Win(caller, _, _) => caller,
            Event::Put(caller, _) => caller,
            Event::Give(caller, _, _) => caller,
            Event::Sweep(caller, _) => caller,
            Event::Keep(caller, _, _) => caller,
            Event::Spill(caller, _) => caller,
            Event::Post(caller, _) => caller,
            Event::Take(caller, _) => caller,
        }
    }

    /// How many tags its caller wins by it.
    #[inline]
    pub(crate) fn won(self) -> u32 {
        match self {
            Event::Win(_, _, mask) => mask.count_ones(),
            Event::Keep(_, _, mask) => mask.count_ones(),
            _ => 0,
        }
    }

    /// How many tags its caller gives back by it.
    #[inline]
    pub(crate) fn back(self) -> u32 {
        match self {
            Event::Put(_, _) => 1,
            Event::Give(_, _, mask) => mask.count_ones(),
            _ => 0,
        }
    }

    /// Whether the layout has all tags, words and bits that it names.
    #[inline]
    pub(crate) fn is_in(self, layout: Layout) -> bool {
        match self {
            Event::Look => true,
            Event::Win(_, word, mask) => is_mask_of(layout, word, mask),
            Event::Put(_, tag) => tag < layout.depth(),
            Event::Give(_, word, mask) => is_mask_of(layout, word, mask),
            Event::Sweep(_, word) => word < layout.words(),
            Event::Keep(_, word, mask) => is_mask_of(layout, word, mask),
            Event::Spill(_, word) => word < layout.words(),
            Event::Post(_, tag) => tag < layout.depth(),
            Event::Take(_, tag) => tag < layout.depth(),
        }
    }

    /// Tags among which are all that it names.
    #[inline]
    pub(crate) fn span(self, layout: Layout) -> Range<u32> {
        match self {
            Event::Look => 0..0,
            Event::Win(_, word, _) => tags_of(layout, word),
            Event::Put(_, tag) => tag..tag + 1,
            Event::Give(_, word, _) => tags_of(layout, word),
            Event::Sweep(_, word) => tags_of(layout, word),
            Event::Keep(_, word, _) => tags_of(layout, word),
            Event::Spill(_, word) => tags_of(layout, word),
            Event::Post(_, tag) => tag..tag + 1,
            Event::Take(_, tag) => tag..tag + 1,
        }
    }

    /// Whether it names the tag.
    #[inline]
    pub(crate) fn names(self, layout: Layout, tag: u32) -> bool {
        match self {
            Event::Look => false,
            Event::Win(_, word, mask) => is_in_mask(layout, word, mask, tag),
            Event::Put(_, named) => tag == named,
            Event::Give(_, word, mask) => is_in_mask(layout, word, mask, tag),
            Event::Sweep(_, word) => layout.word_of(tag) == word,
            Event::Keep(_, word, mask) => is_in_mask(layout, word, mask, tag),
            Event::Spill(_, word) => layout.word_of(tag) == word,
            Event::Post(_, named) => tag == named,
            Event::Take(_, named) => tag == named,
        }
    }

    /// The tags that it names as a word and a mask, if it names any.
    #[inline]
    pub(crate) fn mask(self, layout: Layout) -> Option<(u32, u64)> {
        match self {
            Event::Look => None,
            Event::Win(_, word, mask) => Some((word, mask)),
            Event::Put(_, tag) => Some((layout.word_of(tag), mask_of(layout, tag))),
            Event::Give(_, word, mask) => Some((word, mask)),
            Event::Sweep(_, word) => Some((word, layout.usable(word))),
            Event::Keep(_, word, mask) => Some((word, mask)),
            Event::Spill(_, word) => Some((word, layout.usable(word))),
            Event::Post(_, tag) => Some((layout.word_of(tag), mask_of(layout, tag))),
            Event::Take(_, tag) => Some((layout.word_of(tag), mask_of(layout, tag))),
        }
    }

    /// Whether a tag that it names may be there.
    #[inline]
    pub(crate) fn accepts(self, place: Place) -> bool {
        match self {
            Event::Look | Event::Sweep(_, _) | Event::Spill(_, _) => true,
            Event::Win(_, _, _) => place == Place::Free,
            Event::Put(caller, _) => place == Place::Held(caller),
            Event::Give(caller, _, _) => place == Place::Held(caller),
            Event::Keep(caller, _, _) => place == Place::Sweep(caller),
            Event::Post(caller, _) => place == Place::Held(caller),
            Event::Take(_, _) => place == Place::Posted,
        }
    }

    /// Where it brings a tag that it names.
    #[inline]
    pub(crate) fn brings(self, place: Place) -> Place {
        match self {
            Event::Look => place,
            Event::Win(caller, _, _) => Place::Held(caller),
            Event::Put(_, _) => Place::Aside,
            Event::Give(_, _, _) => Place::Free,
            Event::Sweep(caller, _) => place.swept_by(caller),
            Event::Keep(caller, _, _) => Place::Held(caller),
            Event::Spill(caller, _) => place.spilled_by(caller),
            Event::Post(_, _) => Place::Posted,
            Event::Take(caller, _) => Place::Held(caller),
        }
    }

    /// Returns the fault of an event one of whose tags is elsewhere.
    #[inline]
    pub(crate) fn missing(self) -> EventFault {
        match self {
            Event::Win(_, _, _) => EventFault::NotFree,
            Event::Take(_, _) => EventFault::NotPosted,
            Event::Keep(_, _, _) => EventFault::NotSwept,
            _ => EventFault::NotHeld,
        }
    }
}
