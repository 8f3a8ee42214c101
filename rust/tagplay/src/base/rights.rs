//! What a program may do to the world: the rights that Rattle passes on as arguments.

use crate::base::io::{Input, Output};
use crate::base::sleep::Wait;
use crate::base::vec::Global;
use std::fmt::Arguments;
use std::io::{stderr, Result, Write};

/// All rights of a process.
pub struct HostRuntime;

impl HostRuntime {
    /// Standard input.
    pub fn reader(&self) -> Input {
        Input
    }
}

/// The right to memory.
pub trait AllocGlobal {
    fn alloc(&self) -> Global {
        Global
    }
}

/// The right to the arguments.
pub trait Env {}

/// The right to start threads.
pub trait Threads {}

/// The right to standard output.
pub trait Print {
    fn print(&self, text: &str) -> Result<()> {
        Output.write_all(text.as_bytes())
    }
}

/// The right to standard error.
pub trait Eprint {
    fn eprintln(&self, text: Arguments<'_>) -> Result<()> {
        writeln!(stderr().lock(), "{text}")
    }
}

impl AllocGlobal for HostRuntime {}
impl Env for HostRuntime {}
impl Threads for HostRuntime {}
impl Print for HostRuntime {}
impl Eprint for HostRuntime {}
impl Wait for HostRuntime {}

/// What has a text.
pub trait AsStr {
    fn text(&self) -> &str;
}

impl AsStr for String {
    fn text(&self) -> &str {
        self
    }
}
