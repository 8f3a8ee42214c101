// Made of crates/tag_runs/src/options.rt, where the contracts are, by rust/generate.

//! Options of a play.

use crate::proved::loop_device::Setup;

/// How a log is read and played.
#[derive(Clone, Copy, Debug, PartialEq, Eq)]
pub struct PlayOptions {
    /// How it is played.
    pub setup: Setup,
    /// Whether it is a log of version 3, in which each line begins with a time. Otherwise it is of version 2.
    pub with_times: bool,
}
