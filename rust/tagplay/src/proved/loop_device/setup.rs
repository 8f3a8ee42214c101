// Made of crates/loop_device/src/setup.rt, where the contracts are, by rust/generate.

//! How a log is played.

use crate::proved::tag_layout::{MAX_DEPTH, MAX_SHIFT};

/// How a log is played.
#[derive(Clone, Copy, Debug, PartialEq, Eq)]
pub struct Setup {
    /// The total number of tags, at most 10,240.
    pub total: u32,
    /// How many tags, from tag 0 on, are reserved: fewer than the total. No line is carried out under a reserved tag.
    pub reserved: u32,
    /// Binary logarithm of the bits in a whole word, at most 6. If `None`, each set of tags uses its default.
    pub shift: Option<u32>,
    /// The number of threads that submit, 1 to 16.
    pub submitters: u32,
    /// The number of threads that complete, 1 to 16.
    pub completers: u32,
    /// The capacity of the device queue, in tags, 1 to 10,240.
    pub queue: u32,
}

/// The most threads of one role.
const MAX_THREADS: u32 = 16;

impl Setup {
    /// Whether each number is within its limits, and at least one tag is ordinary.
    pub(crate) fn is_legal(&self) -> bool {
        self.flaw().is_none()
    }

    /// What is wrong with the setup, in words: the first of its numbers that is beyond its limits. `None` if it is legal.
    pub fn flaw(&self) -> Option<&'static str> {
        if self.total > MAX_DEPTH {
            Some("more than 10240 tags")
        } else if self.reserved >= self.total {
            Some("no tag that is not reserved")
        } else if !self.has_shift() {
            Some("a shift above 6")
        } else if !is_count(self.submitters, MAX_THREADS) {
            Some("the number of submitters is not from 1 to 16")
        } else if !is_count(self.completers, MAX_THREADS) {
            Some("the number of completers is not from 1 to 16")
        } else if !is_count(self.queue, MAX_DEPTH) {
            Some("the queue is not from 1 to 10240")
        } else {
            None
        }
    }

    /// Whether the shift, if one is given, is within its limit.
    fn has_shift(&self) -> bool {
        match self.shift {
            Some(shift) => shift <= MAX_SHIFT,
            None => true,
        }
    }
}

/// Whether the number is from 1 to `most`.
fn is_count(number: u32, most: u32) -> bool {
    1 <= number && number <= most
}
