// Made of crates/tag_script/src/answer.rt, where the contracts are, by rust/generate.

//! The answers of commands.

use crate::base::vec::{AllocError, Global, Vec};
use crate::proved::tag_queue::{Left, ResizeCause, Shown, TagFault, WaitFault, Wakes};

/// The answer of a command.
#[derive(Debug)]
pub enum Answer {
    /// Of a get: the tag, or none.
    Tag(Option<u32>),
    /// Of a batch get: the tag of the mask's lowest bit, and the mask of the tags won; or none.
    Batch(Option<(u32, u64)>),
    /// The command was carried out, and woke this many waiters.
    Done(u32),
    /// Of a wait: the number of the group that the caller entered, below 8.
    Group(u32),
    /// Of the end of a wait: whether the caller used a wakeup.
    Left(Left),
    /// Of `wakes`: the counts that the caller found.
    Wakes(Wakes),
    /// Of `busy`: the busy tags, ascending.
    Busy(BusyTags),
    /// Of a show: the sizes and the counts of a set.
    Shown(Shown),
    /// Of a dump: a bit for each tag, 1 for a busy one, eight per byte.
    Dump(DumpBytes),
    /// The command was refused.
    Refused(TagFault),
    /// A wait was refused, or the end of one.
    NotWaited(WaitFault),
    /// A resize was refused.
    NotResized(ResizeCause),
}

/// A list of busy tags, ascending.
#[derive(Debug)]
pub struct BusyTags(Vec<u32>);

impl BusyTags {
    /// Lists the numbers of the bits that are 1: bit `p` of word `w` is the tag `64 * w + p`.
    pub fn of_bits(alloc: Global, bits: &[u64]) -> Result<BusyTags, AllocError> {
        let mut tags = Vec::new(alloc);
        for index in 0..bits.len() {
            let word = bits[index];
            // Most words of a large map have no busy tag.
            if word == 0 {
                continue;
            }
            for place in 0..64 {
                if word & (1 << place) != 0 {
                    tags.push((64 * index + place) as u32)?;
                }
            }
        }
        Ok(BusyTags::new(tags))
    }

    /// Wraps a list of tags.
    pub fn new(tags: Vec<u32>) -> BusyTags {
        BusyTags(tags)
    }

    /// Returns the tags in order.
    pub fn as_slice(&self) -> &[u32] {
        self.0.as_slice()
    }
}

/// The bytes of a dump.
#[derive(Debug)]
pub struct DumpBytes(Vec<u8>);

impl DumpBytes {
    /// Wraps a list of bytes.
    pub fn new(bytes: Vec<u8>) -> DumpBytes {
        DumpBytes(bytes)
    }

    /// Returns the bytes in order.
    pub fn as_slice(&self) -> &[u8] {
        self.0.as_slice()
    }
}
