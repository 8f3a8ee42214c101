// Made of crates/tag_search/src/batch.rt, where the contracts are, by rust/generate.

//! The search for several adjacent tags in one word, as in `__sbitmap_queue_get_batch` of lib/sbitmap.c.

use crate::proved::tag_layout::{first_clear, Layout};
use crate::proved::tag_search::port::Port;

/// Returns the mask of `n` bits from a place on.
#[inline]
fn run_of(n: u32, place: u32) -> u64 {
    (u64::MAX >> (64 - n)) << place
}

/// Claims `n` places from `place` on. Returns the mask of those won, whose lowest bit is `place`, or `None` if none was
/// free.
#[inline]
fn claim_run<P: Port>(port: &mut P, word: u32, place: u32, n: u32) -> Option<u64> {
    let claim = port.claim(word, run_of(n, place), n);
    if claim.won == 0 {
        return None;
    }
    Some(claim.won >> place)
}

/// Frees what is set aside in the word, and then loads it.
#[inline]
fn sweep_and_look<P: Port>(port: &mut P, word: u32) -> u64 {
    port.sweep(word);
    port.look(word)
}

/// Sweeps and loads the word, and claims `n` places from its first clear one on, if the word has that many.
#[inline]
fn visit_for_run<P: Port>(port: &mut P, layout: Layout, word: u32, n: u32) -> Option<(u32, u64)> {
    let found = sweep_and_look(port, word);
    let depth = layout.word_depth(word);
    let place = first_clear(found, 0, depth)?;
    if place + n > depth {
        return None;
    }
    let bits = claim_run(port, word, place, n)?;
    Some((place, bits))
}

/// Returns the word that comes after `visited` others of `count` words, in cyclic order from `first`.
#[inline]
fn word_after(count: u32, first: u32, visited: u32) -> u32 {
    let behind = count - first;
    if visited < behind {
        first + visited
    } else {
        visited - behind
    }
}

/// Visits all words in cyclic order from `first`, until a claim wins. It is one loop, so that a visit is compiled once.
#[inline]
pub fn search_run<P: Port>(port: &mut P, layout: Layout, n: u32, first: u32) -> Option<(u32, u64)> {
    let count = layout.words();
    for visited in 0..count {
        let word = word_after(count, first, visited);
        if let Some((place, bits)) = visit_for_run(port, layout, word, n) {
            return Some((layout.tag_at(word, place), bits));
        }
    }
    None
}
