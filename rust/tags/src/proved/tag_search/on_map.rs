// Made of crates/tag_search/src/on_map.rt, where the contracts are, by rust/generate.

//! Gets and clears by one of the callers of a shared map.

use crate::proved::tag_core::{Caller, Map, Spent};
use crate::proved::tag_search::found::Found;
use crate::proved::tag_search::hint::{after_clear, Hint};
use crate::proved::tag_search::pass::{visit, TURNS};
use crate::proved::tag_search::place::bit_of;
use crate::proved::tag_search::rank::Rank;
use crate::proved::tag_search::search;
use crate::proved::tag_search::search::Unfinished;
use crate::proved::tag_search::shared::Shared;

/// Takes a free tag for the caller. `None` means that each place tried was found taken at some moment of the call, not
/// that all were taken at one moment. `Spent` if the caller's life has no room for one more tag.
#[inline(always)]
pub fn get<R>(map: &Map<R>, caller: &mut Caller<R>, hint: &mut Hint) -> Result<Found<u32>, Spent> {
    if !caller.room(1) {
        return Err(Spent);
    }
    match begin(map, caller, hint) {
        Ok(tag) => Ok(Found {
            answer: Some(tag),
            left: 0,
        }),
        Err(rest) => Ok(finish(map, caller, hint, rest)),
    }
}

/// Begins a get, for which there is room: makes its first try, which is the whole of most gets. `finish` does the rest.
#[inline(always)]
pub fn begin<R>(map: &Map<R>, caller: &mut Caller<R>, hint: &mut Hint) -> Result<u32, Unfinished> {
    let tag = search::begin(&mut Shared::new(map, caller), hint)?;
    Ok(tag)
}

/// Finishes a get that won nothing at its first try. It is out of line and makes a port of its own: the port of the first
/// try then needs no memory.
#[inline]
pub fn finish<R>(map: &Map<R>, caller: &mut Caller<R>, hint: &mut Hint, rest: Unfinished) -> Found<u32> {
    let mut port = Shared::new(map, caller);
    let answer = search::finish(&mut port, hint, rest);
    let left = port.left();
    Found { answer, left }
}

/// As `get`, limited to `depth` tags, which are distributed over the words. The share of a word may be 0.
#[inline]
pub fn get_shallow<R>(map: &Map<R>, caller: &mut Caller<R>, hint: &mut Hint, depth: u32) -> Result<Found<u32>, Spent> {
    let mut port = Shared::new(map, caller);
    let answer = search::get_shallow(&mut port, hint, depth)?;
    let left = port.left();
    Ok(Found { answer, left })
}

/// Takes up to `n` adjacent free tags of one word for the caller. Returns the first tag of the run and the mask of
/// those won, whose lowest bit is that tag. Under round robin it returns `None` without a step.
#[inline]
pub fn get_batch<R>(map: &Map<R>, caller: &mut Caller<R>, hint: &mut Hint, n: u32) -> Result<Found<(u32, u64)>, Spent> {
    let mut port = Shared::new(map, caller);
    let answer = search::get_batch(&mut port, hint, n)?;
    let left = port.left();
    Ok(Found { answer, left })
}

/// Takes this tag for the caller if it is free, and no other. `None` means that its bit was found set at some moment of the
/// call: some caller held the tag, it was posted, or another caller's sweep was about to free it. A tag that is set aside
/// counts as free: its word is swept, which frees the other tags set aside there too. `Spent` as in `get`.
#[inline]
pub fn get_exactly<R>(map: &Map<R>, caller: &mut Caller<R>, tag: u32) -> Result<Found<u32>, Spent> {
    if !caller.room(1) {
        return Err(Spent);
    }
    let layout = map.layout();
    let place = layout.place_of(tag);
    let only = Rank {
        from: place,
        limit: place + 1,
        then: 0,
    };
    let mut port = Shared::new(map, caller);
    let won = visit(&mut port, layout.word_of(tag), only, TURNS);
    let left = port.left();
    let answer = match won {
        Some(_) => Some(tag),
        None => None,
    };
    Ok(Found { answer, left })
}

/// Sets a held tag aside: it is free after the next sweep of its word. The hint moves to the tag, except under round
/// robin.
#[inline]
pub fn put<R>(map: &Map<R>, caller: &mut Caller<R>, hint: &mut Hint, tag: u32) {
    map.put(caller, tag);
    after_clear(hint, tag);
}

/// Frees a held tag at once. The hint moves to the tag, except under round robin.
#[inline]
pub fn give<R>(map: &Map<R>, caller: &mut Caller<R>, hint: &mut Hint, tag: u32) {
    let layout = map.layout();
    map.give(caller, layout.word_of(tag), bit_of(layout, tag));
    after_clear(hint, tag);
}
