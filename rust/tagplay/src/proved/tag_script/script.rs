// Made of crates/tag_script/src/script.rt, where the contracts are, by rust/generate.

//! Scripts: commands of callers, carried out one after another.

use crate::base::sleep::Wait;
use crate::base::vec::{AllocError, Global, Vec};
use crate::proved::tag_lines::{orders, ListFault, Order};
use crate::proved::tag_script::ending::Ending;
use crate::proved::tag_script::fault::OpenFault;
use crate::proved::tag_script::options::ScriptOptions;
use crate::proved::tag_script::plain::run_alone;
use crate::proved::tag_script::refused::setup_refusal;
use crate::proved::tag_script::shared::run_shared;
use crate::proved::tag_script::text::{faulty_text, setup_text};

/// What is said of a word by which no command goes.
const UNKNOWN_COMMAND: &str = "no such command with this many words, or not under --plain";

/// Returns the output of a script, and whether it is a refusal. All lines are read before the world is opened, and that
/// before any command: the output reports the first malformed line, or else a refused setup, or else has the answers of
/// the commands and the totals. `AllocError` if memory runs out.
pub fn answer_script<W: Wait>(
    rt: &W,
    alloc: Global,
    options: &ScriptOptions,
    script: &[u8],
) -> Result<(Vec<u8>, Ending), AllocError> {
    let orders = match orders(alloc, options.dialect(), options.callers, script) {
        Ok(orders) => orders,
        Err(ListFault::Memory) => return Err(AllocError),
        Err(ListFault::Faulty(fault)) => {
            let text = faulty_text(alloc, fault)?;
            return Ok((text, Ending::Refused(fault.refusal(UNKNOWN_COMMAND))));
        }
    };
    match carry_out(rt, alloc, options, &orders) {
        Ok(text) => Ok((text, Ending::Done)),
        Err(OpenFault::Memory) => Err(AllocError),
        Err(OpenFault::Setup(fault)) => {
            let text = setup_text(alloc, fault)?;
            Ok((text, Ending::Refused(setup_refusal(fault))))
        }
    }
}

/// Runs the orders in the world that the options describe.
fn carry_out<W: Wait>(rt: &W, alloc: Global, options: &ScriptOptions, orders: &[Order]) -> Result<Vec<u8>, OpenFault> {
    if options.plain {
        run_alone(alloc, options, orders)
    } else {
        run_shared(rt, alloc, options, orders)
    }
}
