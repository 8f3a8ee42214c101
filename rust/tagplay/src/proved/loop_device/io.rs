// Made of crates/loop_device/src/io.rt, where the contracts are, by rust/generate.

//! The lines of an I/O log, and what is kept of a line that was carried out.

use crate::base::vec::Vec;

/// What an I/O line asks for.
#[derive(Clone, Copy, Debug, PartialEq, Eq)]
pub enum IoKind {
    /// Returns the greatest stamp of its sectors.
    Read,
    /// Stamps sectors.
    Write,
    /// Stamps sectors, as a write does.
    Trim,
    /// Touches no sector.
    Sync,
    /// Touches no sector.
    Datasync,
}

impl IoKind {
    /// Whether lines of this kind leave their stamp on the sectors that they cover.
    pub(crate) fn leaves_stamp(self) -> bool {
        matches!(self, IoKind::Write | IoKind::Trim)
    }
}

/// An I/O line of a log.
#[derive(Clone, Copy, Debug, PartialEq, Eq)]
pub struct Io {
    /// The line's number in the log, from 1.
    pub line: u64,
    /// What the line asks for.
    pub kind: IoKind,
    /// The index of the line's name in the log's `names`.
    pub name: u32,
    /// Where its range starts, in bytes.
    pub offset: u64,
    /// The length of its range, in bytes.
    pub length: u64,
}

/// An I/O line that was carried out, and what it answered.
#[derive(Clone, Copy, Debug, PartialEq, Eq)]
pub struct Done {
    /// The line.
    pub io: Io,
    /// For a write or a trim its line number, for a read the greatest stamp of its sectors, otherwise 0.
    pub stamp: u64,
}

/// What an I/O log says.
pub struct Log {
    /// The names, in the order in which they were added.
    pub names: Vec<Vec<u8>>,
    /// The I/O lines, in order.
    pub ios: Vec<Io>,
    /// The number of `wait` lines.
    pub waits: u64,
}
