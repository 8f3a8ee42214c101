//! Standard streams, which write at once what they are given.

pub use std::io::{ErrorKind, Read, Result, Write};

use crate::base::rights::HostRuntime;
use crate::base::vec::Vec;
use std::io::{stdin, stdout};

/// Standard input.
pub struct Input;

impl Read for Input {
    fn read(&mut self, into: &mut [u8]) -> Result<usize> {
        stdin().lock().read(into)
    }
}

/// Standard output. A fault of it is reported by the write that met it.
pub struct Output;

impl Write for Output {
    fn write(&mut self, bytes: &[u8]) -> Result<usize> {
        let mut output = stdout().lock();
        let count = output.write(bytes)?;
        output.flush()?;
        Ok(count)
    }

    fn flush(&mut self) -> Result<()> {
        Ok(())
    }
}

/// Standard output.
pub fn writer(_: &HostRuntime) -> Output {
    Output
}

/// Texts are written into memory, too.
impl Write for Vec<u8> {
    fn write(&mut self, bytes: &[u8]) -> Result<usize> {
        match self.extend_from_slice(bytes) {
            Ok(()) => Ok(bytes.len()),
            Err(_) => Err(ErrorKind::OutOfMemory.into()),
        }
    }

    fn flush(&mut self) -> Result<()> {
        Ok(())
    }
}
