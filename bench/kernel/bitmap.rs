//! What a program would write that needs no more: a bitmap of the map's words, whose tags are claimed by `fetch_or` and freed by
//! `fetch_and`, with a hint for each thread. Nothing records who holds a tag, and nobody can wait for one.
use crate::loops::{Tags, BATCH};
use std::sync::atomic::{AtomicU64, Ordering::SeqCst};

/// A word of the bitmap, on lines of its own as those of the map are. A bit that is 1 is taken, or no tag.
#[repr(align(128))]
struct Word(AtomicU64);

/// A tag is a bit of a word, and so many bits of each word are tags.
pub struct Bitmap {
    words: Vec<Word>,
    /// Binary logarithm of the tags of a word: the largest up to 6 with which there are four whole words.
    shift: u32,
    stride: u32,
}

impl Bitmap {
    /// Claims up to so many free tags of a word, the lowest ones. The mask of those that it got.
    #[inline]
    fn claim(&self, word: usize, count: u32) -> u64 {
        let bits = &self.words[word].0;
        let mut free = !bits.load(SeqCst);
        let mut wanted = 0;
        for _ in 0..count {
            wanted |= free & free.wrapping_neg();
            free &= free.wrapping_sub(1);
        }
        if wanted == 0 {
            return 0;
        }
        wanted & !bits.fetch_or(wanted, SeqCst)
    }

    /// Claims tags of the first word that has any, from the hint's on. The first tag of the word, and the mask.
    #[inline]
    fn search(&self, hint: &mut usize, count: u32) -> Option<(u32, u64)> {
        for _ in 0..self.words.len() {
            let won = self.claim(*hint, count);
            if won != 0 {
                return Some(((*hint as u32) << self.shift, won));
            }
            *hint = (*hint + 1) % self.words.len();
        }
        None
    }

    /// The word of a tag, and its bit there.
    #[inline]
    fn place_of(&self, tag: u32) -> (usize, u64) {
        let word = tag >> self.shift;
        (word as usize, 1 << (tag - (word << self.shift)))
    }
}

impl Tags for Bitmap {
    const NAME: &'static str = "bitmap";

    /// The word at which the thread's next search begins.
    type User = usize;

    fn open(depth: u32, _threads: u32, stride: u32) -> Bitmap {
        let shift = (0..=6).rev().find(|shift| depth >> shift >= 4).unwrap_or(6);
        let tags_from = |word: u32| (depth - (word << shift)).min(1 << shift);
        let words = (0..depth.div_ceil(1 << shift))
            .map(|word| Word(AtomicU64::new(u64::MAX.checked_shl(tags_from(word)).unwrap_or(0))))
            .collect();
        Bitmap {
            words,
            shift,
            stride,
        }
    }

    fn enter(&self, index: u32) -> usize {
        self.place_of(index * self.stride).0
    }

    #[inline]
    fn get(&self, hint: &mut usize) -> Option<u32> {
        let (first, won) = self.search(hint, 1)?;
        Some(first + won.trailing_zeros())
    }

    #[inline]
    fn clear(&self, hint: &mut usize, tag: u32) {
        let (word, bit) = self.place_of(tag);
        *hint = word;
        self.words[word].0.fetch_and(!bit, SeqCst);
    }

    #[inline]
    fn get_batch(&self, hint: &mut usize, tags: &mut [u32; BATCH]) -> usize {
        let Some((first, mut won)) = self.search(hint, BATCH as u32) else {
            return 0;
        };
        let mut count = 0;
        while won != 0 {
            tags[count] = first + won.trailing_zeros();
            won &= won - 1;
            count += 1;
        }
        count
    }

    /// The tags are of one word, that of the hint.
    #[inline]
    fn clear_batch(&self, hint: &mut usize, tags: &[u32]) {
        let mask = tags.iter().fold(0, |mask, &tag| mask | self.place_of(tag).1);
        self.words[*hint].0.fetch_and(!mask, SeqCst);
    }

    fn close(self) {}
}
