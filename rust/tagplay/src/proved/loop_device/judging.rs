// Made of crates/loop_device/src/judging.rt, where the contracts are, by rust/generate.

//! Whether each I/O line of a log was carried out once.

use crate::base::vec::{Global, Vec};
use crate::proved::loop_device::fault::PlayFault;
use crate::proved::loop_device::io::{Done, Io, Log};

/// Whether the items carry out each I/O line of the log once, and no other line. Of several faults the first in the
/// order Memory, Spurious, Twice, Lost is reported. Takes `n log n` steps, and memory for one number per I/O line.
pub fn verdict(alloc: Global, log: &Log, done: &[Done]) -> Result<(), PlayFault> {
    let counts = tally(alloc, &log.ios, done)?;
    if let Some(index) = first_above_one(&counts) {
        return Err(PlayFault::Twice(log.ios[index].line));
    }
    if let Some(index) = first_zero(&counts) {
        return Err(PlayFault::Lost(log.ios[index].line));
    }
    Ok(())
}

/// The first index with a count above 1.
fn first_above_one(counts: &[usize]) -> Option<usize> {
    counts.iter().position(|count| *count > 1)
}

/// The first index with a count of 0.
fn first_zero(counts: &[usize]) -> Option<usize> {
    counts.iter().position(|count| *count == 0)
}

/// Counts how many items carry out each line.
fn tally(alloc: Global, ios: &[Io], done: &[Done]) -> Result<Vec<usize>, PlayFault> {
    let Ok(mut counts) = Vec::filled(alloc, 0, ios.len()) else {
        return Err(PlayFault::Memory);
    };
    for item in done {
        match index_of(ios, &item.io) {
            Some(index) => counts[index] += 1,
            None => return Err(PlayFault::Spurious),
        }
    }
    Ok(counts)
}

/// The index of the line among these.
fn index_of(ios: &[Io], io: &Io) -> Option<usize> {
    match ios.binary_search_by_key(&io.line, |found| found.line) {
        Ok(index) => {
            if ios[index] == *io {
                Some(index)
            } else {
                None
            }
        }
        Err(_) => None,
    }
}
