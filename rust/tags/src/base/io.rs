//! Output.

#[cfg(feature = "std")]
pub use std::io::{Result, Write};

/// What a write answers.
#[cfg(not(feature = "std"))]
pub type Result<T> = core::result::Result<T, core::fmt::Error>;

/// What texts are written to.
#[cfg(not(feature = "std"))]
pub trait Write {
    /// Writes all these bytes, or fails.
    fn write_all(&mut self, bytes: &[u8]) -> Result<()>;
}

#[cfg(feature = "std")]
impl Write for crate::base::vec::Vec<u8> {
    fn write(&mut self, bytes: &[u8]) -> Result<usize> {
        match self.extend_from_slice(bytes) {
            Ok(()) => Ok(bytes.len()),
            Err(_) => Err(std::io::ErrorKind::OutOfMemory.into()),
        }
    }

    fn flush(&mut self) -> Result<()> {
        Ok(())
    }
}
