// Made of crates/tag_runs/src/source.rt, where the contracts are, by rust/generate.

//! Readers that keep whether a read of theirs has failed.

use crate::base::io::{Read, Result};

pub trait Source: Read {
    /// Reads as `read` does, and counts as failed exactly if it returns an error.
    fn fetch(&mut self, buf: &mut [u8]) -> Result<usize>;
}

impl Source for &[u8] {
    fn fetch(&mut self, buf: &mut [u8]) -> Result<usize> {
        self.read(buf)
    }
}

/// A reader with what its reads came to. One that was just made has not failed.
pub struct Watched<R> {
    reader: R,
    has_failed: bool,
}

impl<R> Watched<R> {
    /// Watches a reader from here on.
    pub fn new(reader: R) -> Watched<R> {
        Watched {
            reader,
            has_failed: false,
        }
    }
}

impl<R: Read> Read for Watched<R> {
    fn read(&mut self, buf: &mut [u8]) -> Result<usize> {
        let outcome = self.reader.read(buf);
        self.has_failed = outcome.is_err() || self.has_failed;
        outcome
    }
}

impl<R: Read> Source for Watched<R> {
    fn fetch(&mut self, buf: &mut [u8]) -> Result<usize> {
        self.read(buf)
    }
}
