// Made of crates/tag_lines/src/refusal.rt, where the contracts are, by rust/generate.

//! What is wrong with an input, for the one who wrote it.

use core::fmt;

/// What a refusal is about. Lines and words are numbered from 1.
#[derive(Clone, Copy, Debug, PartialEq, Eq)]
pub enum Place {
    /// The input as a whole, or the options.
    Whole,
    /// This line.
    Line(u64),
    /// Of this line this word.
    Word(u64, u64),
}

impl Place {
    /// The word of this line, or the line if there is no such word.
    pub fn at(line: u64, word: Option<u64>) -> Place {
        match word {
            Some(word) => Place::Word(line, word),
            None => Place::Line(line),
        }
    }
}

/// Why an input was refused.
#[derive(Clone, Copy, Debug, PartialEq, Eq)]
pub struct Refusal {
    /// Where it is wrong.
    pub place: Place,
    /// What is wrong there.
    pub what: &'static str,
}

impl fmt::Display for Refusal {
    fn fmt(&self, f: &mut fmt::Formatter<'_>) -> fmt::Result {
        let what = self.what;
        match self.place {
            Place::Whole => write!(f, "{what}"),
            Place::Line(line) => write!(f, "line {line}: {what}"),
            Place::Word(line, word) => write!(f, "line {line}, word {word}: {what}"),
        }
    }
}
