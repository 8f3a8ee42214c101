//! Atomic steps on words that lie on lines of their own. Once as ors and and-nots, and once as the map steps: a loop of
//! compare_exchange for a claim, a sum for a put, a difference for a give and a sweep.
use std::sync::atomic::{AtomicU64, Ordering::SeqCst};

/// A word on a line of its own.
#[derive(Default)]
#[repr(align(64))]
pub struct Line(pub AtomicU64);

/// A word, and its cleared set behind it.
#[derive(Default)]
pub struct Word {
    /// 1 is taken.
    pub word: Line,
    /// 1 is set aside.
    pub cleared: Line,
}

/// So many words, of which no tag is taken.
pub fn new_words(count: usize) -> Vec<Word> {
    (0..count).map(|_| Word::default()).collect()
}

/// How the bits of a word are set and cleared.
pub trait Steps {
    const NAME: &'static str;
    /// Sets bits, some of which may be 1 already: a claim. Answers what it found.
    fn or(word: &AtomicU64, mask: u64) -> u64;
    /// Sets a bit that is 0: a put, in a word's cleared set. The caller holds the tag, so nobody else sets it.
    fn set(word: &AtomicU64, bit: u64);
    /// Clears bits that are all 1: a give of tags that the caller holds, and the second step of a sweep.
    fn clear(word: &AtomicU64, mask: u64);

    /// Takes what was set aside out of the word. Answers whether there was anything.
    fn sweep(at: &Word) -> bool {
        let mask = at.cleared.0.swap(0, SeqCst);
        if mask != 0 {
            Self::clear(&at.word.0, mask);
        }
        mask != 0
    }
}

/// Ors and and-nots, each one locked instruction if rustc finds it.
pub struct Atomics;

impl Steps for Atomics {
    const NAME: &'static str = "atomics";

    fn or(word: &AtomicU64, mask: u64) -> u64 {
        word.fetch_or(mask, SeqCst)
    }

    fn set(word: &AtomicU64, bit: u64) {
        word.fetch_or(bit, SeqCst);
    }

    fn clear(word: &AtomicU64, mask: u64) {
        word.fetch_and(!mask, SeqCst);
    }
}

/// The map's steps. Where it is known what the bits are, a sum or a difference changes them in one instruction; a claim does
/// not know it, and is a load and a loop of compare_exchange, which is what the toolchain makes of the map's fetch_or.
pub struct Sums;

impl Steps for Sums {
    const NAME: &'static str = "sums";

    fn or(word: &AtomicU64, mask: u64) -> u64 {
        let mut found = word.load(SeqCst);
        loop {
            match word.compare_exchange(found, found | mask, SeqCst, SeqCst) {
                Ok(_) => return found,
                Err(other) => found = other,
            }
        }
    }

    fn set(word: &AtomicU64, bit: u64) {
        word.fetch_add(bit, SeqCst);
    }

    fn clear(word: &AtomicU64, mask: u64) {
        word.fetch_sub(mask, SeqCst);
    }
}
