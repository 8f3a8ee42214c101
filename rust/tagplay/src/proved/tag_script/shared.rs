// Made of crates/tag_script/src/shared.rt, where the contracts are, by rust/generate.

//! Scripts of callers that share tags.

use crate::base::sleep::Wait;
use crate::base::vec::{Global, Vec};
use crate::proved::tag_board::Board;
use crate::proved::tag_lines::Order;
use crate::proved::tag_queue::{QueueOpenFault, MAX_CAP};
use crate::proved::tag_script::callers::Callers;
use crate::proved::tag_script::fault::OpenFault;
use crate::proved::tag_script::options::ScriptOptions;
use crate::proved::tag_script::running::run_orders;

/// Runs the orders of callers that share tags, and returns the output.
pub(crate) fn run_shared<W: Wait>(
    rt: &W,
    alloc: Global,
    options: &ScriptOptions,
    orders: &[Order],
) -> Result<Vec<u8>, OpenFault> {
    let board = open(alloc, options)?;
    match run_orders(alloc, Callers::new(rt, alloc, board), orders) {
        Ok(text) => Ok(text),
        Err(_) => Err(OpenFault::Memory),
    }
}

/// Opens the board that the options describe.
fn open(alloc: Global, options: &ScriptOptions) -> Result<Board, OpenFault> {
    match Board::open(alloc, options.tag_options(), MAX_CAP) {
        Ok(board) => Ok(board),
        Err(QueueOpenFault::Memory) => Err(OpenFault::Memory),
        Err(fault) => Err(OpenFault::Setup(fault)),
    }
}
