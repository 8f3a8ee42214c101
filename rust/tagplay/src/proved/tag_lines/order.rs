// Made of crates/tag_lines/src/order.rt, where the contracts are, by rust/generate.

//! The orders of a script, one per line.

use crate::base::vec::{AllocError, Global};
use crate::proved::tag_lines::dialect::Dialect;
use crate::proved::tag_lines::fault::{LineFault, Misfit};
use crate::proved::tag_lines::lines::{cut_word, has_gap};
use crate::proved::tag_lines::numbers::short_number;
use crate::proved::tag_lines::tag_list::{read_tags, TagList};

/// The second word is no command's name, or not with as many words behind it.
const UNKNOWN_COMMAND: LineFault = LineFault::BadLine(Misfit::UnknownCommand(2));

/// What a caller asks for.
#[derive(Debug)]
pub enum Command {
    /// Gets a free tag.
    Get,
    /// Gets a free reserved tag.
    GetReserved,
    /// Gets a free tag, limited to this many tags of the whole map.
    Shallow(u32),
    /// Gets this many adjacent tags, or those of them that are free.
    Batch(u32),
    /// Gives this tag back.
    Clear(u32),
    /// Gives these tags back at once.
    ClearBatch(TagList),
    /// Leaves this tag for any caller to take.
    Post(u32),
    /// Takes this tag, which was posted.
    Take(u32),
    /// Enters a group of callers that wait for a tag.
    Wait,
    /// Leaves that group.
    Leave,
    /// Shows what was counted and charged, the group to be woken next, and how many wait.
    Wakes,
    /// Shows the sizes of the map, and how many of its tags are busy and how many are set aside.
    Show,
    /// The same for the reserved tags.
    ShowReserved,
    /// Lists the busy tags.
    Busy,
    /// Shows the busy tags as bits.
    Dump,
    /// The same for the reserved tags.
    DumpReserved,
    /// Resizes to this many tags in all.
    Resize(u32),
}

/// A command and the caller that gives it.
#[derive(Debug)]
pub struct Order {
    /// The caller's number, from 0.
    pub caller: u32,
    /// What the caller asks for.
    pub command: Command,
}

impl Command {
    /// The command with this name and no argument.
    fn named(dialect: Dialect, name: &[u8]) -> Option<Command> {
        if name == b"get".as_slice() {
            Some(Command::Get)
        } else if name == b"show".as_slice() {
            Some(Command::Show)
        } else if name == b"busy".as_slice() {
            Some(Command::Busy)
        } else if name == b"dump".as_slice() {
            Some(Command::Dump)
        } else if name == b"get-reserved".as_slice() {
            dialect.only_shared(Command::GetReserved)
        } else if name == b"wait".as_slice() {
            dialect.only_shared(Command::Wait)
        } else if name == b"leave".as_slice() {
            dialect.only_shared(Command::Leave)
        } else if name == b"wakes".as_slice() {
            dialect.only_shared(Command::Wakes)
        } else {
            None
        }
    }

    /// The command with this name and this argument, which is not a number.
    fn worded(dialect: Dialect, name: &[u8], word: &[u8]) -> Option<Command> {
        if word != b"reserved".as_slice() {
            None
        } else if name == b"show".as_slice() {
            dialect.only_shared(Command::ShowReserved)
        } else if name == b"dump".as_slice() {
            dialect.only_shared(Command::DumpReserved)
        } else {
            None
        }
    }
}

/// The kinds of command with a number as their argument.
#[derive(Clone, Copy, Debug, PartialEq, Eq)]
pub enum Numbered {
    /// The number is a depth.
    Shallow,
    /// The number is a count of tags.
    Batch,
    /// The number is a tag.
    Clear,
    /// The number is a tag.
    Post,
    /// The number is a tag.
    Take,
    /// The number is the total number of tags.
    Resize,
}

impl Numbered {
    /// The kind with this name.
    fn named(dialect: Dialect, name: &[u8]) -> Option<Numbered> {
        if name == b"shallow".as_slice() {
            Some(Numbered::Shallow)
        } else if name == b"batch".as_slice() {
            Some(Numbered::Batch)
        } else if name == b"clear".as_slice() {
            Some(Numbered::Clear)
        } else if name == b"post".as_slice() {
            dialect.only_shared(Numbered::Post)
        } else if name == b"take".as_slice() {
            dialect.only_shared(Numbered::Take)
        } else if name == b"resize".as_slice() {
            dialect.only_shared(Numbered::Resize)
        } else {
            None
        }
    }

    /// The command of this kind with this number.
    fn command(self, number: u32) -> Command {
        match self {
            Numbered::Shallow => Command::Shallow(number),
            Numbered::Batch => Command::Batch(number),
            Numbered::Clear => Command::Clear(number),
            Numbered::Post => Command::Post(number),
            Numbered::Take => Command::Take(number),
            Numbered::Resize => Command::Resize(number),
        }
    }
}

/// Parses a line as an order by a caller below `callers`, or reports what is wrong with the line.
pub fn read_order(
    alloc: Global,
    dialect: Dialect,
    callers: u32,
    line: &[u8],
) -> Result<Result<Order, LineFault>, AllocError> {
    if has_gap(line) {
        return Ok(Err(LineFault::BadLine(Misfit::EmptyWord)));
    }
    let (caller, rest) = cut_word(line);
    let rest = match rest {
        Some(rest) => rest,
        None => return Ok(Err(LineFault::BadLine(Misfit::WordCount))),
    };
    let (name, rest) = cut_word(rest);
    let words = match rest {
        Some(words) => words,
        None => return Ok(lone_order(callers, caller, Command::named(dialect, name))),
    };
    if name == b"clear-batch".as_slice() {
        let tags = read_tags(alloc, words)?;
        return Ok(listed_order(callers, caller, tags));
    }
    let (word, more) = cut_word(words);
    match more {
        Some(_) => Ok(Err(UNKNOWN_COMMAND)),
        None => Ok(word_order(dialect, callers, caller, name, word)),
    }
}

fn lone_order(callers: u32, caller: &[u8], command: Option<Command>) -> Result<Order, LineFault> {
    let command = command.ok_or(UNKNOWN_COMMAND)?;
    let caller = short_number(caller).ok_or(LineFault::BadNumber(1))?;
    ordered(callers, caller, command)
}

fn word_order(dialect: Dialect, callers: u32, caller: &[u8], name: &[u8], word: &[u8]) -> Result<Order, LineFault> {
    match Command::worded(dialect, name, word) {
        Some(command) => lone_order(callers, caller, Some(command)),
        None => numbered_order(callers, caller, Numbered::named(dialect, name), word),
    }
}

fn numbered_order(callers: u32, caller: &[u8], kind: Option<Numbered>, number: &[u8]) -> Result<Order, LineFault> {
    let kind = kind.ok_or(UNKNOWN_COMMAND)?;
    let caller = short_number(caller).ok_or(LineFault::BadNumber(1))?;
    let number = short_number(number).ok_or(LineFault::BadNumber(3))?;
    ordered(callers, caller, kind.command(number))
}

fn listed_order(callers: u32, caller: &[u8], tags: Result<TagList, u64>) -> Result<Order, LineFault> {
    let caller = short_number(caller).ok_or(LineFault::BadNumber(1))?;
    let tags = tags.map_err(LineFault::BadNumber)?;
    ordered(callers, caller, Command::ClearBatch(tags))
}

/// The order, if there is such a caller.
fn ordered(callers: u32, caller: u32, command: Command) -> Result<Order, LineFault> {
    if caller < callers {
        Ok(Order { caller, command })
    } else {
        Err(LineFault::NoSuchCaller)
    }
}
