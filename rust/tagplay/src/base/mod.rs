//! What the proved modules of the program stand on, written by hand. It is trusted, not proved. What the library's modules
//! stand on is in `tags`.

#[path = "../../../tags/src/base/digits.rs"]
pub mod digits;
#[path = "../../../tags/src/base/park.rs"]
pub mod park;
#[path = "../../../tags/src/base/sleep.rs"]
pub mod sleep;
#[path = "../../../tags/src/base/table.rs"]
pub mod table;
#[path = "../../../tags/src/base/vec.rs"]
pub mod vec;
#[path = "../../../tags/src/base/word.rs"]
pub mod word;

pub mod boxed;
pub mod command_line;
pub mod env;
pub mod events;
pub mod io;
pub mod queue;
pub mod rights;
pub mod sync;
pub mod thread;
