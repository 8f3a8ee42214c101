//! A connection, as its reader and the workers share it.
use crate::protocol::{command, Fault, Header, MAX_LENGTH, REPLY_SIZE};
use crate::wire::Wire;
use std::io::{ErrorKind, Result};
use std::net::Shutdown;
use std::sync::{Arc, Condvar, Mutex};

pub struct Connection {
    pub number: u64,
    pub wire: Wire,
    /// Locked while a reply is sent. Whether one could not be, so that none is any more.
    is_broken: Mutex<bool>,
    /// Requests without a reply.
    pending: Mutex<usize>,
    idle: Condvar,
}

/// The value beside a tag: the request of whoever holds the tag. The buffer stays with it.
#[derive(Default)]
pub struct Request {
    pub header: Header,
    /// Where the reply goes, from the submit until then.
    pub connection: Option<Arc<Connection>>,
    /// The first bytes of the reply, and the data behind them.
    buffer: Vec<u8>,
}

/// Bytes of a buffer that stay with a tag.
const KEPT: usize = 1 << 18;

impl Request {
    /// Makes room for the data of a READ or a WRITE.
    pub fn fill(&mut self, header: Header) -> std::result::Result<(), Fault> {
        let has_data = matches!(header.command, command::READ | command::WRITE);
        let size = REPLY_SIZE + if has_data { header.length as usize } else { 0 };
        let more = size.saturating_sub(self.buffer.len());
        self.buffer.try_reserve_exact(more).map_err(|_| Fault::Memory)?;
        self.buffer.resize(size, 0);
        self.header = header;
        Ok(())
    }

    pub fn data(&mut self) -> &mut [u8] {
        &mut self.buffer[REPLY_SIZE..]
    }

    /// Returns a whole reply that has data.
    pub fn read_reply(&mut self) -> &[u8] {
        let head = self.header.reply(Ok(()));
        self.buffer[..REPLY_SIZE].copy_from_slice(&head);
        &self.buffer
    }

    pub fn release_large(&mut self) {
        if self.buffer.len() > KEPT {
            self.buffer = Vec::new();
        }
    }
}

impl Connection {
    pub fn new(number: u64, wire: Wire) -> Connection {
        Connection {
            number,
            wire,
            is_broken: Mutex::new(false),
            pending: Mutex::new(0),
            idle: Condvar::new(),
        }
    }

    /// Sends a reply. Nothing is sent behind one that was cut short; then the reader finds the end.
    fn send(&self, reply: &[u8]) {
        let mut is_broken = self.is_broken.lock().unwrap();
        if !*is_broken && self.wire.send(reply).is_err() {
            *is_broken = true;
            let _ = self.wire.stream.shutdown(Shutdown::Both);
        }
    }

    /// Replies that a request was refused. An error means that the next one can't be read.
    pub fn refuse(&self, header: &Header, fault: Fault) -> Result<()> {
        if header.command == command::WRITE {
            if header.length > MAX_LENGTH {
                return Err(ErrorKind::InvalidData.into());
            }
            self.wire.discard(header.length as usize)?;
        }
        self.send(&header.reply(Err(fault)));
        Ok(())
    }

    pub fn begin(&self) {
        *self.pending.lock().unwrap() += 1;
    }

    /// Sends a reply to a request that was begun. A disconnect has none.
    pub fn reply(&self, header: &Header, reply: &[u8]) {
        if header.command != command::DISC {
            self.send(reply);
        }
        let mut pending = self.pending.lock().unwrap();
        *pending -= 1;
        if *pending == 0 {
            self.idle.notify_one();
        }
    }

    pub fn wait_until_idle(&self) {
        let pending = self.pending.lock().unwrap();
        let _none = self.idle.wait_while(pending, |pending| *pending > 0);
    }
}
