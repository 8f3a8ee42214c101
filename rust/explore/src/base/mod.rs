//! The base of `tags`, over words and a sleep that the explorer decides about.

#[path = "../../../tags/src/base/digits.rs"]
pub mod digits;
#[path = "../../../tags/src/base/io.rs"]
pub mod io;
#[path = "../../../tags/src/base/sleep.rs"]
pub mod sleep;
#[path = "../../../tags/src/base/table.rs"]
pub mod table;
#[path = "../../../tags/src/base/vec.rs"]
pub mod vec;

pub mod lock;
pub mod park;
pub mod word;
