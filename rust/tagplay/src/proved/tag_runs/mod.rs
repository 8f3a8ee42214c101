// Made of crates/tag_runs/src/lib.rt, where the contracts are, by rust/generate.

//! The three runs of `tagplay`: each reads its whole input, then computes the output, then writes it.

mod fault;
mod input;
mod log_answer;
mod options;
mod report;
mod run;
mod source;

pub use fault::RunFault;
pub use options::PlayOptions;
pub use run::{run_check, run_play, run_script};
pub use source::{Source, Watched};
