// Made of crates/tag_lines/src/order_list.rt, where the contracts are, by rust/generate.

//! Reads all lines of a script before any is carried out.

use crate::base::vec::{Global, Vec};
use crate::proved::tag_lines::dialect::Dialect;
use crate::proved::tag_lines::fault::{FaultyLine, ListFault};
use crate::proved::tag_lines::lines::cut_line;
use crate::proved::tag_lines::order::{read_order, Order};

/// Reads a script, one order per line: the orders in order, or the first malformed line. `dialect` says which commands
/// there are, and `callers` bounds the callers' numbers.
pub fn orders(alloc: Global, dialect: Dialect, callers: u32, text: &[u8]) -> Result<Vec<Order>, ListFault> {
    let mut orders = Vec::new(alloc);
    let mut rest = text;
    while !rest.is_empty() {
        let (line, after) = cut_line(rest);
        let order = match read_order(alloc, dialect, callers, line) {
            Ok(Ok(order)) => order,
            Ok(Err(cause)) => {
                let number = orders.len() as u64 + 1;
                return Err(ListFault::Faulty(FaultyLine { number, cause }));
            }
            Err(_) => return Err(ListFault::Memory),
        };
        if orders.push(order).is_err() {
            return Err(ListFault::Memory);
        }
        rest = after;
    }
    Ok(orders)
}
