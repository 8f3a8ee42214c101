// Made of crates/tag_layout/src/bits.rt, where the contracts are, by rust/generate.

//! The search for a 0 bit in one word.

/// Returns the least place in `from .. limit` whose bit is 0. `limit` is at most 64.
#[inline]
pub fn first_clear(bits: u64, from: u32, limit: u32) -> Option<u32> {
    if from >= limit {
        return None;
    }
    let clear = !bits >> from;
    let place = from + clear.trailing_zeros();
    if place < limit {
        Some(place)
    } else {
        None
    }
}
