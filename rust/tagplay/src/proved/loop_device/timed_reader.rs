// Made of crates/loop_device/src/timed_reader.rt, where the contracts are, by rust/generate.

//! The state of reading an I/O log with times, line by line.

use crate::base::vec::Global;
use crate::proved::loop_device::fault::{LogCause, LogFault, LogNumber};
use crate::proved::loop_device::io::Log;
use crate::proved::loop_device::log_reader::Reader;
use crate::proved::tag_lines::{cut_word, has_gap, number, Misfit};

/// What the lines read so far say, and the time of the last one.
pub(crate) struct TimedReader {
    reader: Reader,
    /// The time of the last line, 0 before the first.
    last: u64,
}

impl TimedReader {
    /// A reader at the first line after the header.
    pub(crate) fn new(alloc: Global) -> TimedReader {
        TimedReader {
            reader: Reader::new(alloc),
            last: 0,
        }
    }

    /// Reads a line.
    pub(crate) fn read(&mut self, line: &[u8]) -> Result<(), LogFault> {
        match behind_time(self.last, line) {
            Ok((time, plain)) => {
                self.last = time;
                self.reader.read(plain)
            }
            Err(cause) => Err(self.reader.fault(cause)),
        }
    }

    /// The log that the lines read so far make up.
    pub(crate) fn log(self) -> Log {
        self.reader.log()
    }
}

/// The time with which a line begins, not less than `last`, and the line without it.
fn behind_time(last: u64, line: &[u8]) -> Result<(u64, &[u8]), LogCause> {
    if has_gap(line) {
        return Err(LogCause::BadLine(Misfit::EmptyWord));
    }
    let (word, rest) = cut_word(line);
    let plain = match rest {
        Some(plain) => plain,
        None => return Err(LogCause::BadLine(Misfit::WordCount)),
    };
    let time = match number(word) {
        Some(time) => time,
        None => return Err(LogCause::BadNumber(LogNumber::Time)),
    };
    if time < last {
        return Err(LogCause::EarlierTime);
    }
    Ok((time, plain))
}
