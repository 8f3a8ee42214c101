// Made of crates/tag_lines/src/lib.rt, where the contracts are, by rust/generate.

//! Parses lines: a line into words, and words into numbers, orders and events.

mod dialect;
mod event_list;
mod fault;
mod lines;
mod numbers;
mod order;
mod order_list;
mod refusal;
mod tag_list;

pub use dialect::Dialect;
pub use event_list::events;
pub use fault::{FaultyLine, LineFault, ListFault, Misfit};
pub use lines::{cut_line, cut_word, has_gap, LINE_FEED, MAX_INPUT};
pub use numbers::{number, short_number};
pub use order::{read_order, Command, Order};
pub use order_list::orders;
pub use refusal::{Place, Refusal};
pub use tag_list::{read_tags, TagList};
