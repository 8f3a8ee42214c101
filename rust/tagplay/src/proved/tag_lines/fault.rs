// Made of crates/tag_lines/src/fault.rt, where the contracts are, by rust/generate.

//! What is wrong with a line, and why the lines of a text were not read.

use crate::proved::tag_lines::refusal::{Place, Refusal};

/// How the words of a line make up none of the lines that there are. Words are numbered from 1.
#[derive(Clone, Copy, Debug, PartialEq, Eq)]
pub enum Misfit {
    /// A word is empty: the line is empty, begins or ends with a blank, or has two blanks in a row.
    EmptyWord,
    /// No line has this number of words.
    WordCount,
    /// No command goes by this word, whose number this is, with as many words as the line has.
    UnknownCommand(u64),
}

impl Misfit {
    /// The number of the word that is wrong, unless it is the line as a whole.
    pub fn word(self) -> Option<u64> {
        match self {
            Misfit::EmptyWord | Misfit::WordCount => None,
            Misfit::UnknownCommand(word) => Some(word),
        }
    }
}

/// What is wrong with a line. The causes are checked in this order.
#[derive(Clone, Copy, Debug, PartialEq, Eq)]
pub enum LineFault {
    /// An empty word, too few words, an unknown command, or the wrong number of words after it.
    BadLine(Misfit),
    /// This word stands where a number is expected, and isn't all digits, or the number is over its bound.
    BadNumber(u64),
    /// There is no caller with the number that the line begins with.
    NoSuchCaller,
}

impl LineFault {
    /// The number that stands for it in the output.
    pub fn number(self) -> u64 {
        match self {
            LineFault::BadLine(_) => 1,
            LineFault::BadNumber(_) => 2,
            LineFault::NoSuchCaller => 3,
        }
    }

    /// The number of the word that is wrong, from 1, unless it is the line as a whole.
    pub fn word(self) -> Option<u64> {
        match self {
            LineFault::BadLine(misfit) => misfit.word(),
            LineFault::BadNumber(word) => Some(word),
            LineFault::NoSuchCaller => Some(1),
        }
    }

    /// What is wrong, in words. `unknown` says it of a word by which no command goes.
    fn what(self, unknown: &'static str) -> &'static str {
        match self {
            LineFault::BadLine(Misfit::EmptyWord) => {
                "an empty word: the line is empty, begins or ends with a blank, or has two in a row"
            }
            LineFault::BadLine(Misfit::WordCount) => "a caller's number and a command are expected",
            LineFault::BadLine(Misfit::UnknownCommand(_)) => unknown,
            LineFault::BadNumber(_) => "not a decimal number, or one that is too large",
            LineFault::NoSuchCaller => {
                "no such caller: they are numbered from 0, and --callers says how many there are"
            }
        }
    }
}

/// The first malformed line.
#[derive(Clone, Copy, Debug, PartialEq, Eq)]
pub struct FaultyLine {
    /// The line's number, from 1.
    pub number: u64,
    /// What is wrong with it.
    pub cause: LineFault,
}

impl FaultyLine {
    /// What is wrong with which word. `unknown` says it of a word by which no command goes.
    pub fn refusal(self, unknown: &'static str) -> Refusal {
        Refusal {
            place: Place::at(self.number, self.cause.word()),
            what: self.cause.what(unknown),
        }
    }
}

/// Why the lines of a text were not read.
#[derive(Clone, Copy, Debug, PartialEq, Eq)]
pub enum ListFault {
    /// Memory ran out.
    Memory,
    /// This is the first malformed line.
    Faulty(FaultyLine),
}
