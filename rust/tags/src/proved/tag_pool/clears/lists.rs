// Made of crates/tag_pool/src/clears/lists.rt, where the contracts are, by rust/generate.

//! Lists of tags that a caller names.

/// Returns whether each number in the list is below the depth.
#[inline]
pub fn are_below(tags: &[u32], depth: u32) -> bool {
    for tag in tags {
        if *tag >= depth {
            return false;
        }
    }
    true
}

/// Returns whether no number in the list is below `first`.
#[inline]
pub(crate) fn are_from(tags: &[u32], first: u32) -> bool {
    for tag in tags {
        if *tag < first {
            return false;
        }
    }
    true
}

/// Returns whether no number is in the list twice. It compares each with those before it: at most 2,016 pairs for 64.
#[inline]
pub fn are_distinct(tags: &[u32]) -> bool {
    for i in 0..tags.len() {
        if tags[..i].contains(&tags[i]) {
            return false;
        }
    }
    true
}
