// Made of crates/loop_device/src/report.rt, where the contracts are, by rust/generate.

//! What a play carried out.

use crate::base::vec::Vec;
use crate::proved::loop_device::io::Done;
use crate::proved::tag_model::Totals;

/// What a play carried out, and the totals of its tags.
pub struct Report {
    /// The totals of both sets of tags.
    pub totals: Totals,
    /// What was carried out, in order.
    pub done: Vec<Done>,
}
