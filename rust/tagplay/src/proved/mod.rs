//! The proved source as plain Rust, made by rust/generate: one module for each of crates/.

#[path = "../../../tags/src/proved/step_ledger/mod.rs"]
pub mod step_ledger;
#[path = "../../../tags/src/proved/tag_bell/mod.rs"]
pub mod tag_bell;
#[path = "../../../tags/src/proved/tag_core/mod.rs"]
pub mod tag_core;
#[path = "../../../tags/src/proved/tag_layout/mod.rs"]
pub mod tag_layout;
#[path = "../../../tags/src/proved/tag_model/mod.rs"]
pub mod tag_model;
#[path = "../../../tags/src/proved/tag_pool/mod.rs"]
pub mod tag_pool;
#[path = "../../../tags/src/proved/tag_search/mod.rs"]
pub mod tag_search;

pub mod loop_device;
pub mod tag_board;
pub mod tag_lines;
pub mod tag_queue;
pub mod tag_runs;
pub mod tag_script;
pub mod tagplay;
pub mod wake_book;
