// Made of crates/tag_search/src/search.rt, where the contracts are, by rust/generate.

//! Gets: the search for a free tag, from a caller's hint.

use crate::proved::tag_core::Spent;
use crate::proved::tag_layout::Layout;
use crate::proved::tag_search::all_places::search_after;
use crate::proved::tag_search::batch::search_run;
use crate::proved::tag_search::hint::Hint;
use crate::proved::tag_search::pass::Missed;
use crate::proved::tag_search::place::first_free;
use crate::proved::tag_search::port::Port;
use crate::proved::tag_search::rank::Rank;
use crate::proved::tag_search::scan::Scan;

/// Takes a free tag for the caller. `None` means that each place tried was found taken at some moment of the call, not
/// that all were taken at one moment. `Spent` if the port has no room for one more tag.
#[inline(always)]
pub fn get<P: Port>(port: &mut P, hint: &mut Hint) -> Result<Option<u32>, Spent> {
    if !port.room(1) {
        return Err(Spent);
    }
    match begin(port, hint) {
        Ok(tag) => Ok(Some(tag)),
        Err(rest) => Ok(finish(port, hint, rest)),
    }
}

/// What a get has still to do after `begin`.
pub enum Unfinished {
    /// All of it: no try was made.
    NotBegun,
    /// What follows a pass that found the hint's word full.
    Full,
    /// What follows a lost claim in the hint's word, from the next place on, in the word as that claim found it.
    Lost { from: u32, found: u64 },
}

/// Begins a get: tries the first clear place of the hint's word, and moves the hint if it won it. That is the whole of
/// most gets, so `finish` stays out of line. Where the hint is not below the depth, and under round robin, it makes no
/// try.
#[inline(always)]
pub(crate) fn begin<P: Port>(port: &mut P, hint: &mut Hint) -> Result<u32, Unfinished> {
    let layout = port.layout();
    let before = *hint;
    if before.at >= layout.depth() || before.round_robin {
        return Err(Unfinished::NotBegun);
    }
    let word = layout.word_of(before.at);
    let found = port.look(word);
    let Some(place) = first_free(layout, word, found) else {
        return Err(Unfinished::Full);
    };
    if let Err(found) = port.claim_one(word, place) {
        let from = place + 1;
        return Err(Unfinished::Lost { from, found });
    }
    let tag = layout.tag_at(word, place);
    hint.follow_win(layout.depth(), tag);
    Ok(tag)
}

/// Finishes a get that `begin` did not.
#[inline(always)]
pub(crate) fn finish<P: Port>(port: &mut P, hint: &mut Hint, rest: Unfinished) -> Option<u32> {
    let layout = port.layout();
    match rest {
        Unfinished::NotBegun => get_by_scan(port, hint, layout),
        Unfinished::Full => finish_try(port, hint, layout, Missed::Full),
        Unfinished::Lost { from, found } => {
            let limit = layout.word_depth(layout.word_of(hint.at));
            let rest = Rank { from, limit, then: 0 };
            finish_try(port, hint, layout, Missed::Lost { rest, found })
        }
    }
}

/// Finishes a get whose first try missed.
#[inline(always)]
fn finish_try<P: Port>(port: &mut P, hint: &mut Hint, layout: Layout, missed: Missed) -> Option<u32> {
    let before = *hint;
    let answer = search_after(port, layout, layout.word_of(before.at), missed);
    hint.at = before.after_get(layout.depth(), before.at, answer);
    answer
}

/// Makes a get from any hint, with round robin or without.
#[inline]
fn get_by_scan<P: Port>(port: &mut P, hint: &mut Hint, layout: Layout) -> Option<u32> {
    let from = hint.reduced(layout.depth());
    let answer = Scan::plain(layout, hint.round_robin, from).search(port);
    hint.follow(layout.depth(), from, answer);
    answer
}

/// As `get`, limited to `depth` tags, which are distributed over the words. The share of a word may be 0.
#[inline]
pub fn get_shallow<P: Port>(port: &mut P, hint: &mut Hint, depth: u32) -> Result<Option<u32>, Spent> {
    if !port.room(1) {
        return Err(Spent);
    }
    let layout = port.layout();
    let from = hint.reduced(layout.depth());
    let answer = Scan::shallow(layout, depth, from).search(port);
    hint.follow(layout.depth(), from, answer);
    Ok(answer)
}

/// Takes up to `n` adjacent free tags of one word. Returns the first tag of the run and the mask of those won, whose
/// lowest bit is that tag. Under round robin it returns `None` without a step.
#[inline]
pub fn get_batch<P: Port>(port: &mut P, hint: &mut Hint, n: u32) -> Result<Option<(u32, u64)>, Spent> {
    if hint.round_robin {
        return Ok(None);
    }
    if !port.room(n) {
        return Err(Spent);
    }
    let layout = port.layout();
    let from = hint.reduced(layout.depth());
    let answer = search_run(port, layout, n, from >> layout.shift());
    match answer {
        Some((tag, _)) => hint.follow(layout.depth(), from, Some(tag + n - 1)),
        None => hint.at = from,
    }
    Ok(answer)
}
