//! What a server and its clients send each other, by the NBD protocol: the fixed newstyle handshake, and then requests
//! with simple replies. All numbers are big-endian.

pub const SERVER_MAGIC: u64 = 0x4e42_444d_4147_4943;
pub const OPTION_MAGIC: u64 = 0x4948_4156_454f_5054;
pub const ANSWER_MAGIC: u64 = 0x0003_e889_0455_65a9;
pub const REQUEST_MAGIC: u32 = 0x2560_9513;
pub const REPLY_MAGIC: u32 = 0x6744_6698;

/// Flags of both sides: the server offers these two, and a client takes what it wants.
pub const FIXED_NEWSTYLE: u32 = 1;
pub const NO_ZEROES: u32 = 2;

/// Of the export: it has flags, FLUSH, FUA, TRIM, WRITE_ZEROES, and may be used by several connections.
pub const EXPORT_FLAGS: u16 = 1 | 1 << 2 | 1 << 3 | 1 << 5 | 1 << 6 | 1 << 8;

/// Kinds of options.
pub mod option {
    pub const EXPORT_NAME: u32 = 1;
    pub const ABORT: u32 = 2;
    pub const LIST: u32 = 3;
    pub const INFO: u32 = 6;
    pub const GO: u32 = 7;
}

/// Kinds of answers to options.
pub mod answer {
    pub const DONE: u32 = 1;
    pub const SERVER: u32 = 2;
    pub const INFO: u32 = 3;
    pub const UNSUPPORTED: u32 = 0x8000_0001;
    pub const INVALID: u32 = 0x8000_0003;
    pub const UNKNOWN: u32 = 0x8000_0006;
}

pub mod command {
    pub const READ: u16 = 0;
    pub const WRITE: u16 = 1;
    pub const DISC: u16 = 2;
    pub const FLUSH: u16 = 3;
    pub const TRIM: u16 = 4;
    pub const WRITE_ZEROES: u16 = 6;

    pub const NAMES: [&str; 7] = ["READ", "WRITE", "DISC", "FLUSH", "TRIM", "", "WRITE_ZEROES"];
}

pub const FLAG_FUA: u16 = 1;
pub const FLAG_NO_HOLE: u16 = 2;

/// Errors of replies.
#[derive(Clone, Copy, Debug, PartialEq)]
pub enum Fault {
    Io = 5,
    Memory = 12,
    Invalid = 22,
    NoSpace = 28,
    Shutdown = 108,
}

/// In bytes.
pub const REQUEST_SIZE: usize = 28;
pub const REPLY_SIZE: usize = 16;
/// Of the data of one request.
pub const MAX_LENGTH: u32 = 32 << 20;
/// Of an option, which is a name and a list of informations.
pub const MAX_OPTION: usize = 4096;

/// What a reader received of a request.
#[derive(Clone, Copy, Default)]
pub struct Header {
    pub flags: u16,
    pub command: u16,
    pub cookie: u64,
    pub offset: u64,
    pub length: u32,
}

pub fn number(bytes: &[u8]) -> u64 {
    bytes.iter().fold(0, |number, byte| number << 8 | u64::from(*byte))
}

impl Header {
    /// Returns the header, or `None` if the bytes are none.
    pub fn of(bytes: &[u8; REQUEST_SIZE]) -> Option<Header> {
        (number(&bytes[..4]) == u64::from(REQUEST_MAGIC)).then(|| Header {
            flags: number(&bytes[4..6]) as u16,
            command: number(&bytes[6..8]) as u16,
            cookie: number(&bytes[8..16]),
            offset: number(&bytes[16..24]),
            length: number(&bytes[24..]) as u32,
        })
    }

    /// Returns why a device of this size refuses the request, if it does.
    pub fn check(&self, size: u64) -> Result<(), Fault> {
        let end = self.offset.checked_add(u64::from(self.length));
        let is_within = end.is_some_and(|end| end <= size);
        let has_flags = |known: u16| self.flags & !known == 0;
        let refused_unless = |is_well, fault| if is_well { Ok(()) } else { Err(fault) };
        refused_unless(
            has_flags(FLAG_FUA) || self.command == command::WRITE_ZEROES && has_flags(FLAG_FUA | FLAG_NO_HOLE),
            Fault::Invalid,
        )?;
        match self.command {
            command::READ => refused_unless(is_within && self.length <= MAX_LENGTH, Fault::Invalid),
            command::WRITE if self.length > MAX_LENGTH => Err(Fault::Invalid),
            command::WRITE | command::WRITE_ZEROES => refused_unless(is_within, Fault::NoSpace),
            command::TRIM => refused_unless(is_within, Fault::Invalid),
            command::FLUSH => refused_unless(self.offset == 0 && self.length == 0, Fault::Invalid),
            command::DISC => Ok(()),
            _ => Err(Fault::Invalid),
        }
    }

    /// Returns the first bytes of the reply.
    pub fn reply(&self, done: Result<(), Fault>) -> [u8; REPLY_SIZE] {
        let mut bytes = [0; REPLY_SIZE];
        bytes[..4].copy_from_slice(&REPLY_MAGIC.to_be_bytes());
        bytes[4..8].copy_from_slice(&done.map_or_else(|fault| fault as u32, |()| 0).to_be_bytes());
        bytes[8..].copy_from_slice(&self.cookie.to_be_bytes());
        bytes
    }
}
