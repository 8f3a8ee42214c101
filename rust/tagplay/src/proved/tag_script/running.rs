// Made of crates/tag_script/src/running.rt, where the contracts are, by rust/generate.

//! Running a list of orders on a world.

use crate::base::vec::{AllocError, Global, Vec};
use crate::proved::tag_lines::Order;
use crate::proved::tag_model::Totals;
use crate::proved::tag_script::text::{end_line, push_totals};
use crate::proved::tag_script::world::World;

/// Carries out the orders one after another. Returns the lines of their answers and the line of totals. The world is
/// closed even if memory runs out, since it may own values that cannot be dropped.
pub fn run_orders<W: World>(alloc: Global, world: W, orders: &[Order]) -> Result<Vec<u8>, AllocError> {
    let mut text = Vec::new(alloc);
    let mut world = world;
    for order in orders {
        let (answer, next) = world.obey(order)?;
        match answer.push_to(&mut text) {
            Ok(()) => world = next,
            Err(fault) => {
                next.totals();
                return Err(fault);
            }
        }
    }
    push_total(&mut text, world.totals())?;
    Ok(text)
}

/// Appends the last line of a script.
fn push_total(text: &mut Vec<u8>, totals: Totals) -> Result<(), AllocError> {
    text.extend_from_slice(b"total")?;
    push_totals(text, totals)?;
    end_line(text)
}
