// Made of crates/loop_device/src/gate.rt, where the contracts are, by rust/generate.

//! Hooks that the threads of a play call as they make progress.

/// Hooks called by the threads that carry out a log. A test's gate may hold them up.
pub trait Gate: Sync {
    /// Called after the line with this number was submitted.
    fn after_submit(&self, line: u64);

    /// Called before the line with this number is carried out.
    fn before_complete(&self, line: u64);
}

/// A gate that holds up no thread.
#[derive(Clone, Copy, Debug, PartialEq, Eq)]
pub struct OpenGate;

impl Gate for OpenGate {
    fn after_submit(&self, _line: u64) {}

    fn before_complete(&self, _line: u64) {}
}
