//! Sleep on a word, as the explorer decides.

use crate::base::word::Word;
use crate::steps;

pub fn park(word: &Word, expected: u32) {
    steps::park(word.address(), false, || word.peek() as u32 == expected);
}

pub fn wake(word: &Word, count: u32) {
    steps::wake(word.address(), count as usize);
}
