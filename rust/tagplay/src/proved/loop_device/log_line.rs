// Made of crates/loop_device/src/log_line.rt, where the contracts are, by rust/generate.

//! What a line of an I/O log says.

use crate::base::vec::{Global, Vec};
use crate::proved::loop_device::fault::{LogCause, LogNumber};
use crate::proved::loop_device::io::{Io, IoKind};
use crate::proved::tag_lines::{cut_word, has_gap, number, Misfit};

/// The most names that a log may have.
pub(crate) const MAX_NAMES: usize = 16;

/// The greatest offset and length: 2^63 - 1.
const MAX_EXTENT: u64 = 9_223_372_036_854_775_807;

/// The line has neither two words nor four.
const WORD_COUNT: LogCause = LogCause::BadLine(Misfit::WordCount);

/// The second word is no action with this many words.
const UNKNOWN_ACTION: LogCause = LogCause::BadLine(Misfit::UnknownCommand(2));

/// What a line says.
#[derive(Clone, Copy, Debug, PartialEq, Eq)]
pub(crate) enum Entry {
    /// It adds, opens or closes its name.
    Name,
    /// It is a wait.
    Wait,
    /// It is an I/O line.
    Io(Io),
}

/// The actions that take only a name.
#[derive(Clone, Copy, Debug, PartialEq, Eq)]
pub(crate) enum NameAction {
    /// The name is known from here on.
    Add,
    /// The name must be known; nothing is done.
    Open,
    /// The name must be known; nothing is done.
    Close,
}

impl NameAction {
    /// The action with this name.
    fn named(action: &[u8]) -> Option<NameAction> {
        if action == b"add".as_slice() {
            Some(NameAction::Add)
        } else if action == b"open".as_slice() {
            Some(NameAction::Open)
        } else if action == b"close".as_slice() {
            Some(NameAction::Close)
        } else {
            None
        }
    }
}

/// The actions that take a range of bytes.
#[derive(Clone, Copy, Debug, PartialEq, Eq)]
pub(crate) enum RangeAction {
    /// An I/O line of this kind.
    Io(IoKind),
    /// A wait, which is only counted.
    Wait,
}

impl RangeAction {
    /// The action with this name.
    fn named(action: &[u8]) -> Option<RangeAction> {
        if action == b"read".as_slice() {
            Some(RangeAction::Io(IoKind::Read))
        } else if action == b"write".as_slice() {
            Some(RangeAction::Io(IoKind::Write))
        } else if action == b"trim".as_slice() {
            Some(RangeAction::Io(IoKind::Trim))
        } else if action == b"sync".as_slice() {
            Some(RangeAction::Io(IoKind::Sync))
        } else if action == b"datasync".as_slice() {
            Some(RangeAction::Io(IoKind::Datasync))
        } else if action == b"wait".as_slice() {
            Some(RangeAction::Wait)
        } else {
            None
        }
    }
}

/// What the line with this number says. Afterwards `names` includes the name of an `add`.
pub(crate) fn read_line(alloc: Global, names: &mut Vec<Vec<u8>>, number: u64, line: &[u8]) -> Result<Entry, LogCause> {
    if has_gap(line) {
        return Err(LogCause::BadLine(Misfit::EmptyWord));
    }
    let (name, rest) = cut_word(line);
    let rest = match rest {
        Some(rest) => rest,
        None => return Err(WORD_COUNT),
    };
    let (action, rest) = cut_word(rest);
    match rest {
        Some(range) => range_line(names, number, name, action, range),
        None => name_line(alloc, names, number, name, action),
    }
}

/// A name and an action on it.
fn name_line(
    alloc: Global,
    names: &mut Vec<Vec<u8>>,
    _number: u64,
    name: &[u8],
    action: &[u8],
) -> Result<Entry, LogCause> {
    let action = NameAction::named(action).ok_or(UNKNOWN_ACTION)?;
    match (action, index_of(names, name)) {
        (_, Some(_)) => {}
        (NameAction::Add, None) => add_name(alloc, names, name)?,
        (_, None) => return Err(LogCause::UnknownName),
    }
    Ok(Entry::Name)
}

/// Adds a new name, if there is room for it.
fn add_name(alloc: Global, names: &mut Vec<Vec<u8>>, name: &[u8]) -> Result<(), LogCause> {
    if names.len() >= MAX_NAMES {
        return Err(LogCause::TooManyNames);
    }
    let Ok(name) = Vec::of(alloc, name) else {
        return Err(LogCause::Memory);
    };
    match names.push(name) {
        Ok(()) => Ok(()),
        Err(_) => Err(LogCause::Memory),
    }
}

/// The index of a name among the known ones.
fn index_of(names: &[Vec<u8>], name: &[u8]) -> Option<u32> {
    let index = names.iter().position(|known| known.as_slice() == name)?;
    Some(index as u32)
}

/// A name, an action, and the words of its range.
fn range_line(names: &[Vec<u8>], line: u64, name: &[u8], action: &[u8], range: &[u8]) -> Result<Entry, LogCause> {
    let (offset, rest) = cut_word(range);
    let rest = match rest {
        Some(rest) => rest,
        None => return Err(WORD_COUNT),
    };
    let (size, more) = cut_word(rest);
    match more {
        Some(_) => Err(WORD_COUNT),
        None => range_entry(names, line, name, action, offset, size),
    }
}

fn range_entry(
    names: &[Vec<u8>],
    line: u64,
    name: &[u8],
    action: &[u8],
    offset: &[u8],
    size: &[u8],
) -> Result<Entry, LogCause> {
    let action = RangeAction::named(action).ok_or(UNKNOWN_ACTION)?;
    let offset = extent(offset).ok_or(LogCause::BadNumber(LogNumber::Offset))?;
    let length = extent(size).ok_or(LogCause::BadNumber(LogNumber::Length))?;
    let kind = match action {
        RangeAction::Io(kind) => kind,
        RangeAction::Wait => return Ok(Entry::Wait),
    };
    let name = index_of(names, name).ok_or(LogCause::UnknownName)?;
    Ok(Entry::Io(Io {
        line,
        kind,
        name,
        offset,
        length,
    }))
}

/// Parses an offset or a length.
fn extent(word: &[u8]) -> Option<u64> {
    let value = number(word)?;
    if value <= MAX_EXTENT {
        Some(value)
    } else {
        None
    }
}
