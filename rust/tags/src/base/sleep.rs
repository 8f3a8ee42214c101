//! The right to wait.

/// The right to wait for others, without a bound.
pub trait Wait {
    /// Rounds without an end.
    fn forever(&self) -> core::iter::Repeat<()> {
        core::iter::repeat(())
    }
}

impl Wait for () {}
