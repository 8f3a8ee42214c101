// Made of crates/loop_device/src/io_log.rt, where the contracts are, by rust/generate.

//! fio's I/O logs: version 2, and version 3, which has a time before each line.

use crate::base::vec::Global;
use crate::proved::loop_device::fault::{LogCause, LogFault};
use crate::proved::loop_device::io::Log;
use crate::proved::loop_device::log_reader::Reader;
use crate::proved::loop_device::timed_reader::TimedReader;
use crate::proved::tag_lines::cut_line;

/// The first line of a log.
const VERSION_2: &[u8] = b"fio version 2 iolog";

/// The first line of a log with times.
const VERSION_3: &[u8] = b"fio version 3 iolog";

impl Log {
    /// Reads a log of version 2 from its text, or reports the first faulty line and why.
    pub fn read(alloc: Global, text: &[u8]) -> Result<Log, LogFault> {
        let body = body_of(text, VERSION_2, VERSION_3)?;
        read_lines(alloc, body)
    }

    /// Reads a log of version 3, in which each line begins with a time that is not less than the one before, or reports
    /// the first faulty line and why. The log is that of the lines without their times.
    pub fn read_with_times(alloc: Global, text: &[u8]) -> Result<Log, LogFault> {
        let body = body_of(text, VERSION_3, VERSION_2)?;
        read_timed_lines(alloc, body)
    }
}

/// What follows the header. A header of the other version is reported as such.
fn body_of<'a>(text: &'a [u8], header: &[u8], other: &[u8]) -> Result<&'a [u8], LogFault> {
    if text.is_empty() {
        return Err(LogFault {
            line: 1,
            cause: LogCause::NoHeader,
        });
    }
    let (first, body) = cut_line(text);
    if first != header {
        return Err(LogFault {
            line: 1,
            cause: line_cause(first, other),
        });
    }
    Ok(body)
}

/// Why a first line is not the header.
fn line_cause(first: &[u8], other: &[u8]) -> LogCause {
    if first == other {
        LogCause::OtherVersion
    } else {
        LogCause::NoHeader
    }
}

/// Reads the lines after the header, one after another.
fn read_lines(alloc: Global, body: &[u8]) -> Result<Log, LogFault> {
    let mut reader = Reader::new(alloc);
    let mut rest = body;
    while !rest.is_empty() {
        let (line, after) = cut_line(rest);
        reader.read(line)?;
        rest = after;
    }
    Ok(reader.log())
}

/// The same for lines with times.
fn read_timed_lines(alloc: Global, body: &[u8]) -> Result<Log, LogFault> {
    let mut reader = TimedReader::new(alloc);
    let mut rest = body;
    while !rest.is_empty() {
        let (line, after) = cut_line(rest);
        reader.read(line)?;
        rest = after;
    }
    Ok(reader.log())
}
