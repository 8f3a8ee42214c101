//! The proved source as plain Rust, made by rust/generate: one module for each of crates/.

pub mod step_ledger;
pub mod tag_bell;
pub mod tag_cache;
pub mod tag_core;
pub mod tag_layout;
pub mod tag_model;
pub mod tag_pool;
pub mod tag_search;
