// Made of crates/tag_pool/src/looks/marks.rt, where the contracts are, by rust/generate.

//! Sets bits in slices of words and of bytes.

/// Sets bit `first + k` of the slice for each `k` below `width` whose bit is 1 in the mask. It clears no bit.
#[inline]
pub(crate) fn mark(into: &mut [u64], first: u32, width: u32, mask: u64) {
    for place in 0..width {
        if mask & (1 << place) != 0 {
            let bit = first + place;
            into[(bit / 64) as usize] |= 1 << (bit % 64);
        }
    }
}

/// Like `mark`, but in bytes.
#[inline]
pub(crate) fn mark_bytes(into: &mut [u8], first: u32, width: u32, mask: u64) {
    for place in 0..width {
        if mask & (1 << place) != 0 {
            let bit = first + place;
            into[(bit / 8) as usize] |= 1 << (bit % 8);
        }
    }
}
