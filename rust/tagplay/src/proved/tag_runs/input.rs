// Made of crates/tag_runs/src/input.rt, where the contracts are, by rust/generate.

//! Reading the whole input.

use crate::base::vec::{Global, Vec};
use crate::proved::tag_lines::MAX_INPUT;
use crate::proved::tag_runs::fault::RunFault;
use crate::proved::tag_runs::source::Source;

/// Bytes requested from the reader per call.
const PIECE: usize = 16_384;

/// Reads to the end of the input. Any error of the reader is `Read`, an interruption too: there is no retry.
pub(crate) fn read_whole<R: Source>(alloc: Global, reader: &mut R) -> Result<Vec<u8>, RunFault> {
    let mut input = Vec::new(alloc);
    let mut piece = [0; PIECE];
    loop {
        let Ok(count) = reader.fetch(&mut piece) else {
            return Err(RunFault::Read);
        };
        if count == 0 {
            return Ok(input);
        }
        if count > MAX_INPUT - input.len() {
            return Err(RunFault::TooLong);
        }
        if input.extend_from_slice(&piece[..count]).is_err() {
            return Err(RunFault::Memory);
        }
    }
}
