// Made of crates/tag_runs/src/fault.rt, where the contracts are, by rust/generate.

//! Faults of a run.

use core::fmt;

/// Why a run failed.
#[derive(Debug, PartialEq, Eq)]
pub enum RunFault {
    /// Out of memory. Nothing was written.
    Memory,
    /// The reader failed. Nothing was written.
    Read,
    /// The writer failed. Any part of the output may have been written.
    Write,
    /// The input is longer than 16,777,216 bytes. Nothing was written.
    TooLong,
}

impl fmt::Display for RunFault {
    fn fmt(&self, f: &mut fmt::Formatter<'_>) -> fmt::Result {
        match self {
            Self::Memory => f.write_str("out of memory"),
            Self::Read => f.write_str("read fault"),
            Self::Write => f.write_str("write fault"),
            Self::TooLong => f.write_str("input too long"),
        }
    }
}

impl core::error::Error for RunFault {}
