// Made of crates/loop_device/src/lib.rt, where the contracts are, by rust/generate.

//! I/O logs, an in-memory store that carries out their lines under tags, and the verdict on what was carried out.

mod device;
mod device_queue;
mod fault;
mod gate;
mod io;
mod io_log;
mod judging;
mod log_line;
mod log_reader;
mod playing;
mod report;
mod request;
mod segments;
mod setup;
mod store;
mod threads;
mod timed_reader;
mod workers;

pub use fault::{LogCause, LogFault, LogNumber, PlayFault};
pub use gate::{Gate, OpenGate};
pub use io::{Done, Io, IoKind, Log};
pub use judging::verdict;
pub use playing::play;
pub use report::Report;
pub use request::complete;
pub use setup::Setup;
pub use store::Store;
