//! The search of one caller alone, over words that are plain numbers.
use crate::frame::{Case, Options};
use crate::search::{Sizes, Words, get};
use std::sync::Mutex;

/// Tags that stay free on a map that is nearly full.
const SPARE: u32 = 4;

/// Depths that are tried where none is asked for.
const DEPTHS: [u32; 3] = [64, 1_024, 10_240];

struct Plain {
    sizes: Sizes,
    /// 1 is taken.
    word: Vec<u64>,
    /// 1 is set aside.
    aside: Vec<u64>,
}

impl Words for Plain {
    fn look(&mut self, word: u32) -> u64 {
        self.word[word as usize]
    }

    fn claim(&mut self, word: u32, bit: u64) -> u64 {
        let found = self.word[word as usize];
        self.word[word as usize] = found | bit;
        found
    }

    fn sweep(&mut self, word: u32) -> bool {
        let mask = std::mem::take(&mut self.aside[word as usize]);
        self.word[word as usize] &= !mask;
        mask != 0
    }
}

pub fn run(options: &Options) {
    match options.depth {
        Some(depth) => run_depth(options, depth),
        None => DEPTHS.iter().for_each(|&depth| run_depth(options, depth)),
    }
}

fn run_depth(options: &Options, depth: u32) {
    for free in [depth, SPARE.min(depth)] {
        let words = Mutex::new(prepare(depth, free));
        let case = Case {
            contender: "plain numbers",
            workload: "plain",
            name: format!("get and put, {free} of {depth} free"),
            threads: 1,
        };
        case.measure(|_| match words.lock() {
            Ok(mut words) => pairs(&mut words, options.rounds),
            Err(_) => 0,
        });
    }
}

/// A map of this depth of which so many tags stay free.
fn prepare(depth: u32, free: u32) -> Plain {
    let sizes = Sizes::of(depth);
    let mut words = Plain {
        sizes,
        word: vec![0; sizes.words() as usize],
        aside: vec![0; sizes.words() as usize],
    };
    let mut hint = 0;
    for _ in free..depth {
        get(&mut words, sizes, &mut hint);
    }
    words
}

/// Gets a tag, tests that it is taken and sets it aside, so many times. Answers how many tags it got.
#[inline(never)]
fn pairs(words: &mut Plain, rounds: u64) -> u64 {
    let sizes = words.sizes;
    let mut hint = 0;
    let mut done = 0;
    for _ in 0..rounds {
        let Some(tag) = get(words, sizes, &mut hint) else {
            continue;
        };
        let (word, bit) = sizes.place_of(tag);
        let at = word as usize;
        if words.word[at] & !words.aside[at] & bit != 0 {
            words.aside[at] |= bit;
            hint = tag;
            done += 1;
        }
    }
    done
}
