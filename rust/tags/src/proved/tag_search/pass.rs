// Made of crates/tag_search/src/pass.rt, where the contracts are, by rust/generate.

//! Passes over the places of one word, and visits of a word.

use crate::proved::tag_search::port::Port;
use crate::proved::tag_search::rank::Rank;

/// Turns of the visit of the hint's word, each a sweep and a pass.
pub const TURNS: u32 = 4;

/// What a pass has still to do after a first try that won nothing.
#[derive(Clone, Copy)]
pub enum Missed {
    /// Nothing: no place of the rank was clear.
    Full,
    /// To try the places that are left, in the word as the lost claim found it.
    Lost { rest: Rank, found: u64 },
}

/// Loads the word and claims the first clear place of the rank: the whole of most passes.
#[inline(always)]
pub fn try_first<P: Port>(port: &mut P, word: u32, rank: Rank) -> Result<u32, Missed> {
    let found = port.look(word);
    let mut rest = rank;
    let Some(place) = rest.next(found) else {
        return Err(Missed::Full);
    };
    match port.claim_one(word, place) {
        Ok(()) => Ok(place),
        Err(found) => Err(Missed::Lost { rest, found }),
    }
}

/// Does the rest of a pass.
#[inline(always)]
pub fn pass_after<P: Port>(port: &mut P, word: u32, missed: Missed) -> Option<u32> {
    match missed {
        Missed::Full => None,
        Missed::Lost { rest, found } => pass_on(port, word, rest.from, rest.limit, rest.then, found),
    }
}

/// Loads the word and claims the first clear place of the rank. After a lost claim it goes on with the next place that
/// is clear in the word as that claim found it.
#[inline]
pub fn pass<P: Port>(port: &mut P, word: u32, rank: Rank) -> Option<u32> {
    match try_first(port, word, rank) {
        Ok(place) => Some(place),
        Err(missed) => pass_after(port, word, missed),
    }
}

/// Goes on after a lost claim, which found these bits in the word, with the places `from .. limit` and `0 .. then`.
#[inline]
fn pass_on<P: Port>(port: &mut P, word: u32, from: u32, limit: u32, then: u32, lost: u64) -> Option<u32> {
    let mut found = lost;
    let mut left = Rank { from, limit, then };
    while let Some(place) = left.next(found) {
        match port.claim_one(word, place) {
            Ok(()) => return Some(place),
            Err(next) => found = next,
        }
    }
    None
}

/// Passes over the word. If that wins nothing, sweeps it and passes again, up to so many times.
#[inline]
pub fn visit<P: Port>(port: &mut P, word: u32, rank: Rank, turns: u32) -> Option<u32> {
    match pass(port, word, rank) {
        Some(place) => Some(place),
        None => retry(port, word, rank, turns),
    }
}

/// Continues a visit after a pass that won nothing. It takes several turns: between the two steps of another caller's
/// sweep neither the word nor its cleared set shows the tags swept.
#[inline(always)]
pub fn retry<P: Port>(port: &mut P, word: u32, rank: Rank, turns: u32) -> Option<u32> {
    for _ in 0..turns {
        port.sweep(word);
        if let Some(place) = pass(port, word, rank) {
            return Some(place);
        }
    }
    None
}

/// Continues a visit of all places of a word after a pass that won nothing, as `retry` does, but the least tag that a sweep
/// takes, the first in the word's order, stays with the caller and ends the visit. If it were freed too, the caller would
/// have to claim it again, and another could win it first.
#[inline(always)]
pub fn retry_keeping<P: Port>(port: &mut P, word: u32, rank: Rank, turns: u32) -> Option<u32> {
    for _ in 0..turns {
        if let Some(place) = port.sweep_keeping(word) {
            return Some(place);
        }
        if let Some(place) = pass(port, word, rank) {
            return Some(place);
        }
    }
    None
}
