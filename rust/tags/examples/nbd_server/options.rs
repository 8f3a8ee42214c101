//! The command line.
use std::process::exit;
use std::time::Duration;
use tags::Options;

const USAGE: &str = "usage: nbd_server [OPTION]..
  --unix PATH      listen on a Unix socket
  --port N         listen on a port of the loopback interface
  --memory SIZE    a device in memory, 64M if no --file is given; K, M and G are binary
  --file PATH      a device in a file, which exists
  --tags N         most requests in flight, of all connections, 1 to 10240 with the reserved ones [32]
  --reserved N     tags for FLUSH and DISC alone, from 0 [2]
  --cache N        tags that a worker keeps, 0 to 64 [0]
  --workers N      threads that carry requests out, 1 to 16 [4]
  --connections N  most connections at once, 1 to 48; more wait [16]
  --seconds N      most time that a client may stop in the middle of a message, 1 to 3600 [10]";

pub struct Settings {
    pub unix: Option<String>,
    pub port: Option<u16>,
    pub file: Option<String>,
    /// In bytes, of a device in memory.
    pub size: u64,
    pub tags: u32,
    pub reserved: u32,
    cache: u32,
    pub workers: u32,
    connections: u32,
    pub limit: Duration,
}

fn refuse_usage() -> ! {
    eprintln!("{USAGE}");
    exit(2)
}

/// A number of bytes, with a suffix or without one.
fn size(text: &str) -> Option<u64> {
    let (digits, shift) = match text.find(['K', 'M', 'G']) {
        Some(at) if at + 1 == text.len() => (&text[..at], 10 * (1 + "KMG".find(&text[at..])?)),
        _ => (text, 0),
    };
    let value: u64 = digits.parse().ok()?;
    (value <= i64::MAX as u64 >> shift).then(|| value << shift)
}

fn count(text: &str, least: u32, most: u32) -> Option<u32> {
    text.parse().ok().filter(|value| (least..=most).contains(value))
}

impl Settings {
    pub fn read() -> Settings {
        let mut settings = Settings {
            unix: None,
            port: None,
            file: None,
            size: 64 << 20,
            tags: 32,
            reserved: 2,
            cache: 0,
            workers: 4,
            connections: 16,
            limit: Duration::from_secs(10),
        };
        let mut words = std::env::args().skip(1);
        while let Some(name) = words.next() {
            let value = words.next().unwrap_or_else(|| refuse_usage());
            settings.set(&name, value).unwrap_or_else(|| refuse_usage());
        }
        let has_listener = settings.unix.is_some() || settings.port.is_some();
        if !has_listener || settings.tags + settings.reserved > 10_240 {
            refuse_usage();
        }
        settings
    }

    fn set(&mut self, name: &str, value: String) -> Option<()> {
        match name {
            "--unix" => self.unix = Some(value),
            "--port" => self.port = Some(value.parse().ok()?),
            "--memory" => self.size = size(&value)?,
            "--file" => self.file = Some(value),
            "--tags" => self.tags = count(&value, 1, 10_240)?,
            "--reserved" => self.reserved = count(&value, 0, 10_239)?,
            "--cache" => self.cache = count(&value, 0, 64)?,
            "--workers" => self.workers = count(&value, 1, 16)?,
            "--connections" => self.connections = count(&value, 1, 48)?,
            "--seconds" => self.limit = Duration::from_secs(count(&value, 1, 3600)?.into()),
            _ => return None,
        }
        Some(())
    }

    pub fn pool(&self) -> Options {
        Options {
            reserved: self.reserved,
            cache: self.cache,
            notes: true,
            queues: 1,
            ..Options::new(self.tags + self.reserved, self.connections + self.workers)
        }
    }
}
