// Made of crates/tag_script/src/ending.rt, where the contracts are, by rust/generate.

//! How a run ended.

use crate::proved::tag_lines::Refusal;

/// How a run ended.
#[derive(Clone, Copy, Debug, PartialEq, Eq)]
pub enum Ending {
    /// The input was carried out.
    Done,
    /// The input was refused, for this reason. The output is one line, which reports a malformed line, a refused setup
    /// or a refused event by numbers.
    Refused(Refusal),
}
