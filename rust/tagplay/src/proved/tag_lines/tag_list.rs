// Made of crates/tag_lines/src/tag_list.rt, where the contracts are, by rust/generate.

//! Lists of tags, as they appear in a line.

use crate::base::boxed::Box;
use crate::base::vec::{AllocError, Global, Vec};
use crate::proved::tag_lines::lines::cut_word;
use crate::proved::tag_lines::numbers::short_number;

/// A list of tags. It is boxed because most orders have none, so that orders stay small.
#[derive(Debug)]
pub struct TagList(Box<Vec<u32>>);

impl TagList {
    /// The tags in order.
    pub fn as_slice(&self) -> &[u32] {
        self.0.as_slice()
    }
}

/// The number of a list's first word in its line.
const FIRST: u64 = 3;

/// Parses the numbers of a list, separated by single blanks, if each fits in 32 bits. Otherwise the error is the number
/// that the first word that does not has in its line.
pub fn read_tags(alloc: Global, words: &[u8]) -> Result<Result<TagList, u64>, AllocError> {
    let mut tags = Vec::new(alloc);
    let mut rest = words;
    loop {
        let (word, after) = cut_word(rest);
        match short_number(word) {
            Some(tag) => tags.push(tag)?,
            None => return Ok(Err(FIRST + tags.len() as u64)),
        }
        rest = match after {
            Some(after) => after,
            None => return Ok(Ok(TagList(Box::new(alloc, tags)?))),
        };
    }
}
