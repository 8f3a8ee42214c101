//! `copy_file FROM TO` copies a file by threads. A tag is a block under way, with its buffer beside it, so the number
//! of tags bounds how much memory the copy takes. Four threads read: each takes a tag, and waits while none is free,
//! reads the next block into the tag's buffer, writes the number of the block into its slot, and posts the tag. Two
//! write: each takes the next tag that was posted, writes its block, and drops the tag, which may wake a reader.
//!
//! The same in C, `c/examples/copy_file.c`, uses io_uring. Rust's standard library has no io_uring.
use std::error::Error;
use std::fs::{File, Metadata, OpenOptions};
use std::io;
use std::os::unix::fs::{FileExt, MetadataExt};
use std::process::exit;
use std::sync::atomic::{AtomicU64, Ordering::Relaxed};
use std::sync::mpsc::{channel, Receiver, Sender};
use std::sync::Mutex;
use std::thread;
use tags::{Hand, Options, Pool};

/// In bytes.
const BLOCK: u64 = 65_536;

const READERS: u32 = 4;
const WRITERS: u32 = 2;
const TAGS: u32 = 3;

type Buffer = Vec<u8>;

struct Named {
    name: String,
    file: File,
}

struct Copy {
    from: Named,
    to: Named,
    /// Size of the source, in bytes.
    size: u64,
    /// Number of the next block to be read.
    next: AtomicU64,
}

/// Held by the thread that ends the program, until it has ended: one thread says why.
static ENDING: Mutex<()> = Mutex::new(());

fn give_up(what: &str, why: &dyn std::fmt::Display) -> ! {
    let _ending = ENDING.lock();
    eprintln!("copy_file: {what}: {why}");
    exit(1)
}

fn must<T>(what: &str, result: io::Result<T>) -> T {
    result.unwrap_or_else(|error| give_up(what, &error))
}

fn is_same(one: &Metadata, other: &Metadata) -> bool {
    (one.dev(), one.ino()) == (other.dev(), other.ino())
}

impl Copy {
    fn open(from: String, to: String) -> Copy {
        let source = must(&from, File::open(&from));
        let about = must(&from, source.metadata());
        if !about.is_file() {
            give_up(&from, &"not a regular file");
        }
        if std::fs::metadata(&to).is_ok_and(|it| is_same(&it, &about)) {
            give_up(&to, &"this is the source");
        }
        let mut how = OpenOptions::new();
        let target = must(&to, how.write(true).create(true).truncate(true).open(&to));
        Copy {
            from: Named {
                name: from,
                file: source,
            },
            to: Named { name: to, file: target },
            size: about.len(),
            next: AtomicU64::new(0),
        }
    }

    fn blocks(&self) -> u64 {
        self.size.div_ceil(BLOCK)
    }

    /// Fills the buffer with a block, of which the last one may be shorter.
    fn read_block(&self, block: u64, buffer: &mut Buffer) {
        let begin = block * BLOCK;
        buffer.resize(BLOCK.min(self.size - begin) as usize, 0);
        must(&self.from.name, self.from.file.read_exact_at(buffer, begin));
    }

    fn write_block(&self, block: u64, buffer: &Buffer) {
        let written = self.to.file.write_all_at(buffer, block * BLOCK);
        must(&self.to.name, written);
    }

    fn read(&self, hand: &Hand<Buffer>, full: &Sender<u32>) -> tags::Result<()> {
        loop {
            let block = self.next.fetch_add(1, Relaxed);
            if block >= self.blocks() {
                return Ok(());
            }
            let mut tag = hand.get_blocking()?;
            self.read_block(block, tag.value_mut());
            tag.write(block);
            // The channel is open as long as the writers live.
            full.send(tag.post()).unwrap();
        }
    }

    fn write(&self, hand: &Hand<Buffer>, full: &Mutex<Receiver<u32>>) -> tags::Result<()> {
        loop {
            let Ok(number) = full.lock().unwrap().recv() else {
                return Ok(());
            };
            let tag = hand.take(number)?;
            self.write_block(tag.read(), tag.value());
        }
    }

    fn run(&self, pool: &Pool<Buffer>) -> tags::Result<()> {
        let (sender, receiver) = channel();
        let receiver = Mutex::new(receiver);
        thread::scope(|scope| {
            for _ in 0..WRITERS {
                let (hand, receiver) = (pool.join()?, &receiver);
                scope.spawn(move || self.write(&hand, receiver).unwrap());
            }
            for _ in 0..READERS {
                let (hand, sender) = (pool.join()?, sender.clone());
                scope.spawn(move || self.read(&hand, &sender).unwrap());
            }
            // The writers end once each reader has dropped its own.
            drop(sender);
            Ok(())
        })
    }
}

fn main() -> Result<(), Box<dyn Error>> {
    let mut words = std::env::args().skip(1);
    let (Some(from), Some(to), None) = (words.next(), words.next(), words.next()) else {
        give_up("usage", &"copy_file FROM TO");
    };
    let copy = Copy::open(from, to);
    let pool = Pool::open_with(&Options::new(TAGS, READERS + WRITERS), |_| Buffer::new())?;
    copy.run(&pool)?;
    let totals = pool.close()?;
    println!("bytes={}\nblocks={}", copy.size, copy.blocks());
    println!("got={}\nback={}", totals.got, totals.back);
    Ok(())
}
