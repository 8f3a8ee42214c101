// Made of crates/tag_script/src/plain.rt, where the contracts are, by rust/generate.

//! Plain scripts: one caller on plain words.

use crate::base::vec::{Global, Vec};
use crate::proved::tag_layout::{Layout, MAX_DEPTH};
use crate::proved::tag_lines::Order;
use crate::proved::tag_queue::QueueOpenFault;
use crate::proved::tag_script::fault::OpenFault;
use crate::proved::tag_script::options::ScriptOptions;
use crate::proved::tag_script::plain_caller::PlainCaller;
use crate::proved::tag_script::running::run_orders;

/// Carries out the orders of one caller and returns the output, or the reason why the setup was refused.
pub(crate) fn run_alone(alloc: Global, options: &ScriptOptions, orders: &[Order]) -> Result<Vec<u8>, OpenFault> {
    let world = open(alloc, options)?;
    match run_orders(alloc, world, orders) {
        Ok(text) => Ok(text),
        Err(_) => Err(OpenFault::Memory),
    }
}

/// Opens the world with these options: one caller, and all tags free. The first limit exceeded is the reason.
fn open(alloc: Global, options: &ScriptOptions) -> Result<PlainCaller, OpenFault> {
    if options.tags > MAX_DEPTH {
        return Err(OpenFault::Setup(QueueOpenFault::TotalTooLarge));
    }
    if options.reserved > 0 {
        return Err(OpenFault::Setup(QueueOpenFault::ReservedTooLarge));
    }
    let Ok(layout) = Layout::new(options.tags, options.shift) else {
        return Err(OpenFault::Setup(QueueOpenFault::ShiftTooLarge));
    };
    if options.callers != 1 {
        return Err(OpenFault::Setup(QueueOpenFault::CallerCount));
    }
    let least = options.min_shallow.unwrap_or(1).max(1);
    match PlainCaller::open(alloc, layout, options.round_robin, least) {
        Ok(world) => Ok(world),
        Err(_) => Err(OpenFault::Memory),
    }
}
