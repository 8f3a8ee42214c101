// Made of crates/tag_core/src/shape.rt, where the contracts are, by rust/generate.

//! What a map is opened with.

use crate::proved::tag_layout::Layout;

/// What a map was opened with. It never changes.
pub struct Shape {
    /// How the tags are numbered.
    pub layout: Layout,
    /// Number of callers, 1 to 64. They are numbered from 0.
    pub callers: u32,
    /// The most tags that one caller may win, at most 2^48.
    pub life: u64,
}
