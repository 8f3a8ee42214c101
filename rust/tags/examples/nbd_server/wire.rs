//! Receives and sends whole messages. A peer that stops in the middle of one for longer than the limit is taken for
//! gone.
use std::io::{Error, ErrorKind, Read, Result, Write};
use std::os::unix::net::UnixStream;
use std::time::{Duration, Instant};

/// A socket of either kind: all that is asked of it is the same for both.
pub struct Wire {
    pub stream: UnixStream,
    limit: Duration,
}

fn is_idle(error: &Error) -> bool {
    matches!(error.kind(), ErrorKind::WouldBlock | ErrorKind::Interrupted)
}

impl Wire {
    pub fn new(stream: UnixStream, limit: Duration) -> Result<Wire> {
        stream.set_read_timeout(Some(limit))?;
        stream.set_write_timeout(Some(limit))?;
        Ok(Wire { stream, limit })
    }

    /// Repeats a step until it has moved all bytes. Each step may be in time, and the message late.
    fn repeat(&self, size: usize, mut step: impl FnMut(usize) -> Result<usize>) -> Result<()> {
        let (begun, mut done) = (Instant::now(), 0);
        while done < size {
            match step(done) {
                Ok(0) => return Err(ErrorKind::UnexpectedEof.into()),
                Ok(moved) => done += moved,
                Err(error) if error.kind() == ErrorKind::Interrupted => {}
                Err(error) => return Err(error),
            }
            if done < size && begun.elapsed() > self.limit {
                return Err(ErrorKind::TimedOut.into());
            }
        }
        Ok(())
    }

    pub fn receive(&self, into: &mut [u8]) -> Result<()> {
        self.repeat(into.len(), |done| (&self.stream).read(&mut into[done..]))
    }

    /// The same, where the peer may take as long as it wants before it begins.
    pub fn receive_next(&self, into: &mut [u8]) -> Result<()> {
        loop {
            match (&self.stream).read(into) {
                Ok(0) => return Err(ErrorKind::UnexpectedEof.into()),
                Ok(moved) => return self.receive(&mut into[moved..]),
                Err(error) if is_idle(&error) => {}
                Err(error) => return Err(error),
            }
        }
    }

    pub fn discard(&self, mut size: usize) -> Result<()> {
        let mut unused = [0; 16384];
        while size > 0 {
            let part = size.min(unused.len());
            self.receive(&mut unused[..part])?;
            size -= part;
        }
        Ok(())
    }

    pub fn send(&self, bytes: &[u8]) -> Result<()> {
        self.repeat(bytes.len(), |done| (&self.stream).write(&bytes[done..]))
    }
}
