// Made of crates/tag_script/src/lib.rt, where the contracts are, by rust/generate.

//! The output of scripts, and verdicts on lists of events.

mod answer;
mod callers;
mod check;
mod clearing;
mod commands;
mod ending;
mod fault;
mod lines;
mod listing;
mod options;
mod outcomes;
mod plain;
mod plain_caller;
mod refused;
mod running;
mod script;
mod shared;
mod text;
mod world;

pub use answer::{Answer, BusyTags, DumpBytes};
pub use check::{verdict_on, Verdict};
pub use ending::Ending;
pub use options::{CheckOptions, ScriptOptions};
pub use running::run_orders;
pub use script::answer_script;
pub use text::{faulty_text, setup_text};
pub use world::World;
