// Made of crates/tag_lines/src/event_list.rt, where the contracts are, by rust/generate.

//! Lists of events, one per line.

use crate::base::vec::{Global, Vec};
use crate::proved::tag_lines::fault::{FaultyLine, LineFault, ListFault, Misfit};
use crate::proved::tag_lines::lines::{cut_line, cut_word, has_gap};
use crate::proved::tag_lines::numbers::{number, short_number};
use crate::proved::tag_model::Event;

/// The first word is no event's name, or not with as many words behind it.
const UNKNOWN_EVENT: LineFault = LineFault::BadLine(Misfit::UnknownCommand(1));

/// The kinds of event that name a caller and one tag or one word.
#[derive(Clone, Copy, Debug, PartialEq, Eq)]
pub enum Single {
    /// On a tag that the caller holds.
    Put,
    /// On a word.
    Sweep,
    /// On a word.
    Spill,
    /// On a tag that the caller holds.
    Post,
    /// On a posted tag.
    Take,
}

impl Single {
    /// The kind with this name.
    fn named(name: &[u8]) -> Option<Single> {
        if name == b"put".as_slice() {
            Some(Single::Put)
        } else if name == b"sweep".as_slice() {
            Some(Single::Sweep)
        } else if name == b"spill".as_slice() {
            Some(Single::Spill)
        } else if name == b"post".as_slice() {
            Some(Single::Post)
        } else if name == b"take".as_slice() {
            Some(Single::Take)
        } else {
            None
        }
    }

    /// The event of this kind, by a caller, on a tag or a word.
    fn event(self, caller: u32, on: u32) -> Event {
        match self {
            Single::Put => Event::Put(caller, on),
            Single::Sweep => Event::Sweep(caller, on),
            Single::Spill => Event::Spill(caller, on),
            Single::Post => Event::Post(caller, on),
            Single::Take => Event::Take(caller, on),
        }
    }
}

/// The kinds of event that name a caller, a word and a mask.
#[derive(Clone, Copy, Debug, PartialEq, Eq)]
pub enum Masked {
    /// On free tags.
    Win,
    /// On tags that the caller holds.
    Give,
    /// On tags that the caller swept.
    Keep,
}

impl Masked {
    /// The kind with this name.
    fn named(name: &[u8]) -> Option<Masked> {
        if name == b"win".as_slice() {
            Some(Masked::Win)
        } else if name == b"give".as_slice() {
            Some(Masked::Give)
        } else if name == b"keep".as_slice() {
            Some(Masked::Keep)
        } else {
            None
        }
    }

    /// The event of this kind, by a caller, on the tags of a word whose bits are 1 in the mask.
    fn event(self, caller: u32, word: u32, mask: u64) -> Event {
        match self {
            Masked::Win => Event::Win(caller, word, mask),
            Masked::Give => Event::Give(caller, word, mask),
            Masked::Keep => Event::Keep(caller, word, mask),
        }
    }
}

/// Reads a list of events, one per line: the events in order, or the first malformed line.
pub fn events(alloc: Global, text: &[u8]) -> Result<Vec<Event>, ListFault> {
    let mut events = Vec::new(alloc);
    let mut rest = text;
    while !rest.is_empty() {
        let (line, after) = cut_line(rest);
        let event = match event(line) {
            Ok(event) => event,
            Err(cause) => {
                let number = events.len() as u64 + 1;
                return Err(ListFault::Faulty(FaultyLine { number, cause }));
            }
        };
        if events.push(event).is_err() {
            return Err(ListFault::Memory);
        }
        rest = after;
    }
    Ok(events)
}

/// Parses one line.
fn event(line: &[u8]) -> Result<Event, LineFault> {
    if has_gap(line) {
        return Err(LineFault::BadLine(Misfit::EmptyWord));
    }
    let (name, rest) = cut_word(line);
    let rest = match rest {
        Some(rest) => rest,
        None => return lone_event(name),
    };
    let (caller, rest) = cut_word(rest);
    let rest = match rest {
        Some(rest) => rest,
        None => return Err(UNKNOWN_EVENT),
    };
    let (on, rest) = cut_word(rest);
    let rest = match rest {
        Some(rest) => rest,
        None => return single_event(name, caller, on),
    };
    let (mask, rest) = cut_word(rest);
    match rest {
        Some(_) => Err(UNKNOWN_EVENT),
        None => masked_event(name, caller, on, mask),
    }
}

fn lone_event(name: &[u8]) -> Result<Event, LineFault> {
    if name == b"look".as_slice() {
        Ok(Event::Look)
    } else {
        Err(UNKNOWN_EVENT)
    }
}

fn single_event(name: &[u8], caller: &[u8], on: &[u8]) -> Result<Event, LineFault> {
    let kind = Single::named(name).ok_or(UNKNOWN_EVENT)?;
    let caller = short_number(caller).ok_or(LineFault::BadNumber(2))?;
    let on = short_number(on).ok_or(LineFault::BadNumber(3))?;
    Ok(kind.event(caller, on))
}

fn masked_event(name: &[u8], caller: &[u8], word: &[u8], mask: &[u8]) -> Result<Event, LineFault> {
    let kind = Masked::named(name).ok_or(UNKNOWN_EVENT)?;
    let caller = short_number(caller).ok_or(LineFault::BadNumber(2))?;
    let word = short_number(word).ok_or(LineFault::BadNumber(3))?;
    let mask = number(mask).ok_or(LineFault::BadNumber(4))?;
    Ok(kind.event(caller, word, mask))
}
