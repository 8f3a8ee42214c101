//! The fixed newstyle handshake: the client sends options until one of them begins the requests, and the server answers
//! each. There is one export, called "disk", which is also the default.
use crate::protocol::{
    answer, number, option, ANSWER_MAGIC, EXPORT_FLAGS, FIXED_NEWSTYLE, MAX_LENGTH, MAX_OPTION, NO_ZEROES,
    OPTION_MAGIC, SERVER_MAGIC,
};
use crate::wire::Wire;
use std::io::{ErrorKind, Result};

const NAME: &[u8] = b"disk";
const INFO_EXPORT: u16 = 0;
const INFO_BLOCK_SIZE: u16 = 3;

/// Whether the handshake goes on, or the requests begin. An error closes the connection.
#[derive(PartialEq)]
enum Next {
    Option,
    Requests,
}

struct Handshake<'a> {
    wire: &'a Wire,
    size: u64,
    has_zeroes: bool,
}

fn closed<T>() -> Result<T> {
    Err(ErrorKind::InvalidData.into())
}

fn is_export(name: &[u8]) -> bool {
    name.is_empty() || name == NAME
}

/// Returns the name in the data of INFO or GO, which are that name and a list of two bytes each.
fn name_in(data: &[u8]) -> Option<&[u8]> {
    let (length, rest) = data.split_at_checked(4)?;
    let (name, rest) = rest.split_at_checked(number(length) as usize)?;
    let (count, list) = rest.split_at_checked(2)?;
    (list.len() as u64 == 2 * number(count)).then_some(name)
}

impl Handshake<'_> {
    fn answer(&self, kind: u32, answer: u32, data: &[u8]) -> Result<Next> {
        let mut bytes = ANSWER_MAGIC.to_be_bytes().to_vec();
        for number in [kind, answer, data.len() as u32] {
            bytes.extend(number.to_be_bytes());
        }
        bytes.extend(data);
        self.wire.send(&bytes)?;
        Ok(Next::Option)
    }

    fn tell(&self, kind: u32, data: &[u8]) -> Result<Next> {
        let Some(name) = name_in(data) else {
            return self.answer(kind, answer::INVALID, &[]);
        };
        if !is_export(name) {
            return self.answer(kind, answer::UNKNOWN, &[]);
        }
        let mut export = INFO_EXPORT.to_be_bytes().to_vec();
        export.extend(self.size.to_be_bytes());
        export.extend(EXPORT_FLAGS.to_be_bytes());
        self.answer(kind, answer::INFO, &export)?;
        let mut sizes = INFO_BLOCK_SIZE.to_be_bytes().to_vec();
        for size in [1, 4096, MAX_LENGTH] {
            sizes.extend(size.to_be_bytes());
        }
        self.answer(kind, answer::INFO, &sizes)?;
        self.answer(kind, answer::DONE, &[])?;
        Ok(if kind == option::GO {
            Next::Requests
        } else {
            Next::Option
        })
    }

    fn list(&self, data: &[u8]) -> Result<Next> {
        if !data.is_empty() {
            return self.answer(option::LIST, answer::INVALID, &[]);
        }
        let mut name = (NAME.len() as u32).to_be_bytes().to_vec();
        name.extend(NAME);
        self.answer(option::LIST, answer::SERVER, &name)?;
        self.answer(option::LIST, answer::DONE, &[])
    }

    /// The answer to EXPORT_NAME has no header, and no form for a refusal.
    fn begin(&self, name: &[u8]) -> Result<Next> {
        if !is_export(name) {
            return closed();
        }
        let mut told = self.size.to_be_bytes().to_vec();
        told.extend(EXPORT_FLAGS.to_be_bytes());
        if self.has_zeroes {
            told.extend([0; 124]);
        }
        self.wire.send(&told)?;
        Ok(Next::Requests)
    }

    fn carry_on(&self) -> Result<Next> {
        let mut head = [0; 16];
        self.wire.receive(&mut head)?;
        let (kind, length) = (number(&head[8..12]) as u32, number(&head[12..]) as usize);
        if number(&head[..8]) != OPTION_MAGIC || length > MAX_OPTION {
            return closed();
        }
        let mut data = vec![0; length];
        self.wire.receive(&mut data)?;
        match kind {
            option::EXPORT_NAME => self.begin(&data),
            option::ABORT => self.answer(kind, answer::DONE, &[]).and(closed()),
            option::LIST => self.list(&data),
            option::INFO | option::GO => self.tell(kind, &data),
            _ => self.answer(kind, answer::UNSUPPORTED, &[]),
        }
    }
}

/// Agrees with a client to begin, or fails. `goes_on` tells whether the server does.
pub fn agree(wire: &Wire, size: u64, goes_on: impl Fn() -> bool) -> Result<()> {
    let mut hello = SERVER_MAGIC.to_be_bytes().to_vec();
    hello.extend(OPTION_MAGIC.to_be_bytes());
    hello.extend(((FIXED_NEWSTYLE | NO_ZEROES) as u16).to_be_bytes());
    wire.send(&hello)?;
    let mut flags = [0; 4];
    wire.receive(&mut flags)?;
    let taken = u32::from_be_bytes(flags);
    if taken & FIXED_NEWSTYLE == 0 || taken & !(FIXED_NEWSTYLE | NO_ZEROES) != 0 {
        return closed();
    }
    let handshake = Handshake {
        wire,
        size,
        has_zeroes: taken & NO_ZEROES == 0,
    };
    while goes_on() {
        if handshake.carry_on()? == Next::Requests {
            return Ok(());
        }
    }
    closed()
}
