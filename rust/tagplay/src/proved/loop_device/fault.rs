// Made of crates/loop_device/src/fault.rt, where the contracts are, by rust/generate.

//! Why a log was not read, or not played.

use crate::proved::tag_lines::{Misfit, Place, Refusal};
use core::fmt;

/// The numbers of a line.
#[derive(Clone, Copy, Debug, PartialEq, Eq)]
pub enum LogNumber {
    /// The time with which the line begins.
    Time,
    /// Where the range starts.
    Offset,
    /// How long it is.
    Length,
}

/// What is wrong with a line of a log. The causes are checked in this order, but for those of a line's time: they come
/// after an empty word or a time alone, and before all else.
#[derive(Clone, Copy, Debug, PartialEq, Eq)]
pub enum LogCause {
    /// The first line is no header of a log.
    NoHeader,
    /// The first line is the header of the other version: with times where none are read, or without.
    OtherVersion,
    /// An empty word, a number of words other than two and four behind a time, or no such action with that many words.
    BadLine(Misfit),
    /// This number isn't all digits, or is too large: an offset or a length above 2^63 - 1, a time above 2^64 - 1.
    BadNumber(LogNumber),
    /// No earlier line added the name.
    UnknownName,
    /// The name is new, but as many names as a log may have are already known.
    TooManyNames,
    /// Memory ran out.
    Memory,
    /// The time is less than that of the line before.
    EarlierTime,
}

impl fmt::Display for LogCause {
    fn fmt(&self, f: &mut fmt::Formatter<'_>) -> fmt::Result {
        match self {
            Self::NoHeader => f.write_str("no header"),
            Self::OtherVersion => f.write_str("a log of the other version"),
            Self::BadLine(_) => f.write_str("no such action"),
            Self::BadNumber(_) => f.write_str("not a number"),
            Self::UnknownName => f.write_str("unknown name"),
            Self::TooManyNames => f.write_str("too many names"),
            Self::Memory => f.write_str("out of memory"),
            Self::EarlierTime => f.write_str("an earlier time"),
        }
    }
}

impl core::error::Error for LogCause {}

impl LogCause {
    /// The number that stands for it in the output.
    pub fn number(self) -> u64 {
        match self {
            LogCause::NoHeader | LogCause::OtherVersion => 1,
            LogCause::BadLine(_) => 2,
            LogCause::BadNumber(_) => 3,
            LogCause::UnknownName => 4,
            LogCause::TooManyNames => 5,
            LogCause::Memory => 6,
            LogCause::EarlierTime => 7,
        }
    }

    /// The number of the word that is wrong, from 1, in a line with or without a time in front.
    fn word(self, has_time: bool) -> Option<u64> {
        match self {
            LogCause::BadNumber(LogNumber::Time) | LogCause::EarlierTime => Some(1),
            _ => {
                let word = self.plain_word()?;
                Some(if has_time { word + 1 } else { word })
            }
        }
    }

    /// The number of the word that is wrong in a line without a time.
    fn plain_word(self) -> Option<u64> {
        match self {
            LogCause::UnknownName | LogCause::TooManyNames => Some(1),
            LogCause::BadLine(Misfit::UnknownCommand(_)) => Some(2),
            LogCause::BadNumber(LogNumber::Offset) => Some(3),
            LogCause::BadNumber(LogNumber::Length) => Some(4),
            _ => None,
        }
    }

    /// What is wrong, in words.
    fn what(self, has_time: bool) -> &'static str {
        match self {
            LogCause::NoHeader => {
                if has_time {
                    "not 'fio version 3 iolog', with which a log with times begins"
                } else {
                    "not 'fio version 2 iolog', with which a log begins"
                }
            }
            LogCause::OtherVersion => {
                if has_time {
                    "a log of version 2, which has no times: leave out --with-times"
                } else {
                    "a log of version 3, with a time before each line: --with-times plays it"
                }
            }
            LogCause::BadLine(Misfit::EmptyWord) => {
                "an empty word: the line is empty, begins or ends with a blank, or has two in a row"
            }
            LogCause::BadLine(Misfit::WordCount) => {
                if has_time {
                    "neither three words nor five; a file name has no blanks"
                } else {
                    "neither two words nor four; a file name has no blanks"
                }
            }
            LogCause::BadLine(Misfit::UnknownCommand(_)) => {
                "no such action with this many words; a file name has no blanks"
            }
            LogCause::BadNumber(LogNumber::Time) => "the time is not a decimal number, or is too large",
            LogCause::BadNumber(_) => "not a decimal number of at most 9223372036854775807",
            LogCause::UnknownName => "no line before this one adds this file",
            LogCause::TooManyNames => "a seventeenth file, and a log has 16 at most",
            LogCause::Memory => "out of memory",
            LogCause::EarlierTime => "the time is less than that of the line before",
        }
    }
}

/// Why a log was not read.
#[derive(Clone, Copy, Debug, PartialEq, Eq)]
pub struct LogFault {
    /// The number, from 1, of the first faulty line, or of the line that was being read when memory ran out.
    pub line: u64,
    /// What is wrong with it.
    pub cause: LogCause,
}

impl fmt::Display for LogFault {
    fn fmt(&self, f: &mut fmt::Formatter<'_>) -> fmt::Result {
        let Self { cause, line } = self;
        write!(f, "line {line}: {cause}")
    }
}

impl core::error::Error for LogFault {}

impl LogFault {
    /// What is wrong with which word. `has_time` says whether the log was read with times.
    pub fn refusal(self, has_time: bool) -> Refusal {
        Refusal {
            place: Place::at(self.line, self.cause.word(has_time)),
            what: self.cause.what(has_time),
        }
    }
}

/// Why a log was not played. Of several causes the first is reported, in the order Memory, Spurious, Twice, Lost,
/// Totals.
#[derive(Clone, Copy, Debug, PartialEq, Eq)]
pub enum PlayFault {
    /// Memory ran out, or a thread could not be started.
    Memory,
    /// A number of the setup is out of range, or no tag is ordinary.
    Setup,
    /// This line was not carried out; it is the least such line.
    Lost(u64),
    /// This line was carried out more than once; it is the least such line.
    Twice(u64),
    /// A spurious completion: of a line that is not in the log, or of a tag that was handed on but is not posted.
    Spurious,
    /// The totals are not one tag got and given back for each line.
    Totals,
}

impl fmt::Display for PlayFault {
    fn fmt(&self, f: &mut fmt::Formatter<'_>) -> fmt::Result {
        match self {
            Self::Memory => f.write_str("out of memory"),
            Self::Setup => f.write_str("no such setup"),
            Self::Lost(first) => write!(f, "line {first} was not carried out"),
            Self::Twice(first) => write!(f, "line {first} was carried out more than once"),
            Self::Spurious => f.write_str("a line was carried out that is not in the log"),
            Self::Totals => f.write_str("the totals do not fit the log"),
        }
    }
}

impl core::error::Error for PlayFault {}
