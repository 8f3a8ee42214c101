// Made of crates/loop_device/src/log_reader.rt, where the contracts are, by rust/generate.

//! The state of reading an I/O log, line by line.

use crate::base::vec::{Global, Vec};
use crate::proved::loop_device::fault::{LogCause, LogFault};
use crate::proved::loop_device::io::{Io, Log};
use crate::proved::loop_device::log_line::{read_line, Entry};

/// What the lines read so far say.
pub(crate) struct Reader {
    alloc: Global,
    /// The number of the next line.
    number: u64,
    names: Vec<Vec<u8>>,
    ios: Vec<Io>,
    waits: u64,
}

impl Reader {
    /// A reader at the first line after the header.
    pub(crate) fn new(alloc: Global) -> Reader {
        Reader {
            alloc,
            number: 2,
            names: Vec::new(alloc),
            ios: Vec::new(alloc),
            waits: 0,
        }
    }

    /// Reads a line.
    pub(crate) fn read(&mut self, line: &[u8]) -> Result<(), LogFault> {
        let number = self.number;
        let entry = match read_line(self.alloc, &mut self.names, number, line) {
            Ok(entry) => entry,
            Err(cause) => return Err(self.fault(cause)),
        };
        self.number += 1;
        match entry {
            Entry::Name => {}
            Entry::Wait => self.waits += 1,
            Entry::Io(io) => {
                if self.ios.push(io).is_err() {
                    return Err(LogFault {
                        line: number,
                        cause: LogCause::Memory,
                    });
                }
            }
        }
        Ok(())
    }

    /// The next line is faulty for this cause.
    pub(crate) fn fault(&self, cause: LogCause) -> LogFault {
        LogFault {
            line: self.number,
            cause,
        }
    }

    /// The log that the lines read so far make up.
    pub(crate) fn log(self) -> Log {
        Log {
            names: self.names,
            ios: self.ios,
            waits: self.waits,
        }
    }
}
