// Made of crates/tag_script/src/refused.rt, where the contracts are, by rust/generate.

//! Refused setups and events, in words.

use crate::proved::tag_layout::Layout;
use crate::proved::tag_lines::{Place, Refusal};
use crate::proved::tag_model::{Event, EventFault};
use crate::proved::tag_queue::QueueOpenFault;

/// What is wrong with the options of a script or of a list.
pub(crate) fn setup_refusal(fault: QueueOpenFault) -> Refusal {
    let what = match fault {
        QueueOpenFault::Memory => "out of memory",
        QueueOpenFault::TotalTooLarge => "--tags: more than 10240",
        QueueOpenFault::ReservedTooLarge => "--reserved: more than --tags, or any at all under --plain",
        QueueOpenFault::ShiftTooLarge => "--shift: above 6",
        QueueOpenFault::CallerCount => "--callers: not from 1 to 64, or not 1 under --plain",
        QueueOpenFault::LifeTooLong => "--life: above 281474976710656",
        QueueOpenFault::CapTooLarge => "a cap above 2^56 completions",
    };
    Refusal {
        place: Place::Whole,
        what,
    }
}

/// What is wrong with an event that cannot happen, in words.
pub(crate) fn event_words(fault: EventFault) -> &'static str {
    match fault {
        EventFault::NoSuchTag => "no such tag, no such word of the map, or a bit beyond its tags",
        EventFault::NoSuchCaller => "no such caller: they are numbered from 0, and --callers says how many there are",
        EventFault::NotFree => "a tag that is not free",
        EventFault::NotHeld => "a tag that the caller does not hold",
        EventFault::NotPosted => "a tag that is not posted",
        EventFault::NotSwept => "a tag that the caller has not swept",
        EventFault::Spent => "a caller that would have won more than 281474976710656 tags",
    }
}

/// The number, from 1, of the word that is wrong in the line of an event that cannot happen.
pub(crate) fn wrong_word(layout: Layout, event: Event, fault: EventFault) -> u64 {
    match fault {
        EventFault::NoSuchCaller | EventFault::Spent => 2,
        EventFault::NoSuchTag => unknown_word(layout, event),
        EventFault::NotFree | EventFault::NotHeld | EventFault::NotPosted | EventFault::NotSwept => tags_word(event),
    }
}

/// The word that names no tag, no word of the map, or a bit too many: a mask if the map has its word.
fn unknown_word(layout: Layout, event: Event) -> u64 {
    match event {
        Event::Win(_, word, _) | Event::Give(_, word, _) | Event::Keep(_, word, _) if word >= layout.words() => 3,
        _ => tags_word(event),
    }
}

/// The word that names the tags of an event: a mask stands behind its word.
fn tags_word(event: Event) -> u64 {
    match event {
        Event::Win(_, _, _) | Event::Give(_, _, _) | Event::Keep(_, _, _) => 4,
        _ => 3,
    }
}
