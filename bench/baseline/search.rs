//! The search for a free tag, over any way to the words: the rules of `tag_search` for a plain get.

/// One caller's way to the words of a map.
pub trait Words {
    /// What the word has now: 1 is taken.
    fn look(&mut self, word: u32) -> u64;
    /// Sets a bit of the word. Answers what it found.
    fn claim(&mut self, word: u32, bit: u64) -> u64;
    /// Takes what was set aside out of the word. Answers whether there was anything.
    fn sweep(&mut self, word: u32) -> bool;
}

/// How tags lie in words.
#[derive(Clone, Copy)]
pub struct Sizes {
    /// Tags in all.
    pub depth: u32,
    /// Binary logarithm of the bits in a whole word.
    pub shift: u32,
}

impl Sizes {
    /// The greatest shift up to 6 with which so many tags have four whole words, and 6 below four tags.
    pub fn of(depth: u32) -> Sizes {
        let shift = if depth < 4 { 6 } else { (depth / 4).ilog2().min(6) };
        Sizes { depth, shift }
    }

    /// Words in all.
    pub fn words(self) -> u32 {
        self.depth.div_ceil(1 << self.shift)
    }

    /// The word of a tag, and its bit there.
    pub fn place_of(self, tag: u32) -> (u32, u64) {
        (tag >> self.shift, 1 << (tag & ((1 << self.shift) - 1)))
    }

    /// The bits that a word uses.
    fn usable(self, word: u32) -> u64 {
        let bits = (self.depth - (word << self.shift)).min(1 << self.shift);
        u64::MAX >> (64 - bits)
    }
}

/// A free tag. The hint is where the search begins, and where the next one will.
pub fn get(words: &mut impl Words, sizes: Sizes, hint: &mut u32) -> Option<u32> {
    let from = if *hint < sizes.depth { *hint } else { *hint % sizes.depth };
    let first = from >> sizes.shift;
    let answer = visit_between(words, sizes, first, sizes.words())
        .or_else(|| visit_between(words, sizes, 0, first));
    *hint = match answer {
        None => 0,
        Some(tag) if tag != from => from,
        Some(tag) if tag + 2 < sizes.depth => tag + 1,
        Some(_) => 0,
    };
    answer
}

fn visit_between(words: &mut impl Words, sizes: Sizes, from: u32, end: u32) -> Option<u32> {
    (from..end).find_map(|word| {
        let mut won = pass(words, sizes, word);
        if won.is_none() && words.sweep(word) {
            won = pass(words, sizes, word);
        }
        won
    })
}

/// Claims the first clear place of the word, and after a lost claim the next clear one behind it.
fn pass(words: &mut impl Words, sizes: Sizes, word: u32) -> Option<u32> {
    let mut found = words.look(word);
    let mut left = sizes.usable(word);
    while left & !found != 0 {
        let place = (left & !found).trailing_zeros();
        found = words.claim(word, 1 << place);
        if found & (1 << place) == 0 {
            return Some((word << sizes.shift) + place);
        }
        left &= u64::MAX << place << 1;
    }
    None
}
