//! The bytes of the device: a file, or memory in the form of one, so that the same calls read and write both.
use crate::options::Settings;
use crate::protocol::{command, Fault, Header, FLAG_FUA, FLAG_NO_HOLE};
use crate::{must, system};
use std::fs::{File, OpenOptions};
use std::io::{Error, Seek, SeekFrom};
use std::os::unix::fs::FileExt;

pub struct Store {
    file: File,
    pub size: u64,
}

type Done = Result<(), Fault>;

fn fault_of(error: &Error) -> Fault {
    match error.raw_os_error() {
        // EFBIG, ENOSPC and EDQUOT
        Some(27 | 28 | 122) => Fault::NoSpace,
        // ENOMEM
        Some(12) => Fault::Memory,
        // EINVAL
        Some(22) => Fault::Invalid,
        _ => Fault::Io,
    }
}

impl Store {
    pub fn open(settings: &Settings) -> Store {
        let name = settings.file.as_deref().unwrap_or("memory");
        let mut file = must(
            name,
            match &settings.file {
                Some(path) => OpenOptions::new().read(true).write(true).open(path),
                None => system::memory(),
            },
        );
        if settings.file.is_none() {
            must(name, file.set_len(settings.size));
        }
        let size = must(name, file.seek(SeekFrom::End(0)));
        Store { file, size }
    }

    fn flush(&self) -> Done {
        self.file.sync_data().map_err(|error| fault_of(&error))
    }

    fn write_zeroes(&self, header: &Header) -> Done {
        let zeroes = [0; 65536];
        let (mut offset, end) = (header.offset, header.offset + u64::from(header.length));
        while offset < end {
            let part = (end - offset).min(zeroes.len() as u64);
            self.write(&zeroes[..part as usize], offset)?;
            offset += part;
        }
        Ok(())
    }

    fn write(&self, bytes: &[u8], offset: u64) -> Done {
        self.file.write_all_at(bytes, offset).map_err(|error| fault_of(&error))
    }

    /// Whether the file system made the range of a request one of zeros.
    fn punch(&self, header: &Header) -> bool {
        let has_hole = header.flags & FLAG_NO_HOLE == 0;
        system::make_zeroes(&self.file, header.offset, header.length.into(), has_hole)
    }

    fn change(&self, header: &Header, data: &[u8]) -> Done {
        if header.command == command::WRITE {
            return self.write(data, header.offset);
        }
        // A client trims what it does not need, so a trim may do nothing.
        if header.length == 0 || self.punch(header) || header.command == command::TRIM {
            return Ok(());
        }
        self.write_zeroes(header)
    }

    /// Carries a request out whose offset and length are within the device. `data` has the bytes of a READ or a WRITE.
    pub fn carry_out(&self, header: &Header, data: &mut [u8]) -> Done {
        match header.command {
            command::READ => self
                .file
                .read_exact_at(data, header.offset)
                .map_err(|error| fault_of(&error)),
            command::FLUSH | command::DISC => self.flush(),
            _ if header.flags & FLAG_FUA != 0 => self.change(header, data).and_then(|()| self.flush()),
            _ => self.change(header, data),
        }
    }
}
