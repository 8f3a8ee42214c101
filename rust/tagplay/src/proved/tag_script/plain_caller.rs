// Made of crates/tag_script/src/plain_caller.rt, where the contracts are, by rust/generate.

//! The world of a plain script: a map with only one caller.

use crate::base::vec::{AllocError, Global};
use crate::proved::tag_layout::Layout;
use crate::proved::tag_pool::{are_below, Shown, TagFault, MAX_BATCH};
use crate::proved::tag_script::clearing::{are_held_once, give_all};
use crate::proved::tag_search::{after_clear, Hint, PlainPort, Port};

/// A map, its only caller, and the caller's counts.
pub(crate) struct PlainCaller {
    /// Allocator of the answers.
    alloc: Global,
    port: PlainPort,
    /// The least depth of a shallow get, at least 1.
    least: u32,
    hint: Hint,
    /// Tags won so far.
    won: u64,
    /// Tags given back so far.
    back: u64,
}

impl PlainCaller {
    /// Opens a map whose tags are all free. Nothing is counted yet, and the hint is at tag 0.
    pub(crate) fn open(
        alloc: Global,
        layout: Layout,
        round_robin: bool,
        least: u32,
    ) -> Result<PlainCaller, AllocError> {
        let port = PlainPort::open(alloc, layout)?;
        let hint = Hint { at: 0, round_robin };
        Ok(PlainCaller {
            alloc,
            port,
            least,
            hint,
            won: 0,
            back: 0,
        })
    }

    /// Returns the allocator of the answers.
    pub(crate) fn alloc(&self) -> Global {
        self.alloc
    }

    /// Returns the number of tags won so far.
    pub(crate) fn won(&self) -> u64 {
        self.won
    }

    /// Returns the number of tags given back so far.
    pub(crate) fn back(&self) -> u64 {
        self.back
    }

    /// Takes a free tag, or one set aside in a word that has no free one. `None` if none is found.
    pub(crate) fn get(&mut self) -> Option<u32> {
        let answer = self.port.choose(&mut self.hint);
        self.won += won_by(answer);
        answer
    }

    /// Takes a tag as `get` does, within the words' shares of `depth`. Refused with `TooShallow` below the least depth.
    pub(crate) fn get_shallow(&mut self, depth: u32) -> Result<Option<u32>, TagFault> {
        if depth < self.least {
            return Err(TagFault::TooShallow);
        }
        let answer = self.port.choose_shallow(&mut self.hint, depth);
        self.won += won_by(answer);
        Ok(answer)
    }

    /// Takes the free tags of a run of `n` tags in one word. Returns the first tag of the run and the mask of those
    /// won, with bit 0 for that tag, or `None`, as always under round robin. Refused with `BadCount` if `n` is 0 or
    /// exceeds the bits per word.
    pub(crate) fn get_batch(&mut self, n: u32) -> Result<Option<(u32, u64)>, TagFault> {
        if n == 0 || n > bits_per_word(self.port.layout()) {
            return Err(TagFault::BadCount);
        }
        if self.hint.round_robin {
            return Ok(None);
        }
        let answer = self.port.choose_batch(&mut self.hint, n);
        self.won += won_in(answer);
        Ok(answer)
    }

    /// Sets a held tag aside for a later get. Refused with `NoSuchTag` from the depth on, and with `NotHeld`.
    pub(crate) fn clear(&mut self, tag: u32) -> Result<(), TagFault> {
        if tag >= self.port.layout().depth() {
            return Err(TagFault::NoSuchTag);
        }
        if !self.port.taken(tag) {
            return Err(TagFault::NotHeld);
        }
        self.port.put(tag);
        after_clear(&mut self.hint, tag);
        self.back += 1;
        Ok(())
    }

    /// Frees held tags at once, without setting them aside. Refused with `BadCount` unless they are 1 to 64, then with
    /// `NoSuchTag`, then with `NotHeld`, also if a tag is listed twice.
    pub(crate) fn clear_batch(&mut self, tags: &[u32]) -> Result<(), TagFault> {
        if tags.is_empty() || tags.len() > MAX_BATCH {
            return Err(TagFault::BadCount);
        }
        if !are_below(tags, self.port.layout().depth()) {
            return Err(TagFault::NoSuchTag);
        }
        if !are_held_once(&self.port, tags) {
            return Err(TagFault::NotHeld);
        }
        give_all(&mut self.port, tags);
        after_clear(&mut self.hint, tags[tags.len() - 1]);
        self.back += tags.len() as u64;
        Ok(())
    }

    /// Counts the tags that the caller holds, and those set aside.
    pub(crate) fn counts(&mut self) -> (u32, u32) {
        let layout = self.port.layout();
        let mut held = 0u32;
        let mut aside = 0u32;
        for word in 0..layout.words() {
            let usable = layout.usable(word);
            let set = self.port.look(word);
            let cleared = self.port.look_aside(word);
            held += (set & usable & !cleared).count_ones();
            aside += (cleared & usable).count_ones();
        }
        (held, aside)
    }

    /// Returns whether the word has a bit that is 1 and not set aside. If not, the caller holds no tag of the word.
    pub(crate) fn holds_any(&mut self, word: u32) -> bool {
        self.port.look(word) & !self.port.look_aside(word) != 0
    }

    /// Returns whether the caller holds the tag, which it does for no number from the depth on.
    pub(crate) fn holds(&self, tag: u32) -> bool {
        tag < self.port.layout().depth() && self.port.taken(tag)
    }

    /// Returns the layout of the map.
    pub(crate) fn layout(&self) -> Layout {
        self.port.layout()
    }

    /// Returns the sizes of the map, with the numbers of tags held and set aside.
    pub(crate) fn shown(&mut self) -> Shown {
        let (busy, cleared) = self.counts();
        let layout = self.port.layout();
        Shown {
            depth: layout.depth(),
            busy,
            cleared,
            bits_per_word: bits_per_word(layout),
            map_nr: layout.words(),
        }
    }
}

/// The number of tags that a get won.
fn won_by(answer: Option<u32>) -> u64 {
    u64::from(answer.is_some())
}

/// The number of tags that a batch won.
fn won_in(answer: Option<(u32, u64)>) -> u64 {
    match answer {
        Some((_, bits)) => u64::from(bits.count_ones()),
        None => 0,
    }
}

/// The number of bits per word; the last word may use fewer.
fn bits_per_word(layout: Layout) -> u32 {
    1 << layout.shift()
}
