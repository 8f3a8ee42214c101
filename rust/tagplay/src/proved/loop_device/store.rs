// Made of crates/loop_device/src/store.rt, where the contracts are, by rust/generate.

//! An in-memory store: what was carried out, and the stamps of its sectors.

use crate::base::vec::{AllocError, Global, Vec};
use crate::proved::loop_device::io::{Done, Io, IoKind};
use crate::proved::loop_device::segments::Segments;

/// Bytes in a sector.
const SECTOR: u128 = 512;

/// Sectors per name; all names lie side by side in one row. No 64-bit offset and length reach beyond them.
const SECTORS_PER_NAME: u128 = 1 << 56;

/// Sectors in the row.
const WIDTH: u128 = 1 << 88;

pub struct Store {
    alloc: Global,
    stamps: Segments,
    done: Vec<Done>,
}

impl Store {
    /// A store on which nothing has been carried out: every sector's stamp is 0.
    pub fn open(alloc: Global) -> Store {
        Store {
            alloc,
            stamps: Segments::Leaf(0),
            done: Vec::new(alloc),
        }
    }

    /// What was carried out, in order.
    pub fn history(&self) -> &[Done] {
        self.done.as_slice()
    }

    /// Consumes the store and returns what was carried out, in order.
    pub(crate) fn into_history(self) -> Vec<Done> {
        let Store {
            alloc: _,
            stamps: _,
            done,
        } = self;
        done
    }

    /// Carries out a line and returns its stamp: for a write or a trim its line number, for a read the greatest stamp
    /// of its sectors, otherwise 0. A sector's stamp is the line number of the last write or trim that covered it, or 0
    /// if there was none. If memory runs out, nothing changes.
    pub fn carry_out(&mut self, io: &Io) -> Result<u64, AllocError> {
        self.done.reserve(1)?;
        let stamp = answer(&mut self.stamps, self.alloc, io)?;
        self.done.push_reserved(Done { io: *io, stamp });
        Ok(stamp)
    }
}

/// What the line answers. A write or a trim leaves its stamp.
fn answer(stamps: &mut Segments, alloc: Global, io: &Io) -> Result<u64, AllocError> {
    if io.kind.leaves_stamp() {
        leave_stamp(stamps, alloc, io)?;
        return Ok(io.line);
    }
    match io.kind {
        IoKind::Read => {
            let (first, end) = span(io);
            Ok(stamps.greatest(WIDTH, first, end))
        }
        _ => Ok(0),
    }
}

/// Leaves the line's number as the stamp of each sector that it covers.
fn leave_stamp(stamps: &mut Segments, alloc: Global, io: &Io) -> Result<(), AllocError> {
    let (first, end) = span(io);
    stamps.split_at(alloc, WIDTH, first)?;
    stamps.split_at(alloc, WIDTH, end)?;
    stamps.assign(WIDTH, first, end, io.line);
    Ok(())
}

/// The position in the row of the first sector that the line covers, and the position after the last one.
fn span(io: &Io) -> (u128, u128) {
    let base = u128::from(io.name) * SECTORS_PER_NAME;
    let offset = u128::from(io.offset);
    let first = base + offset / SECTOR;
    if io.length > 0 {
        let last = (offset + u128::from(io.length) - 1) / SECTOR;
        (first, base + last + 1)
    } else {
        (first, first)
    }
}
