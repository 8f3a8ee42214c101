//! `waits CONTENDER THREADS TAGS MICROSECONDS SECONDS` has threads wait for few tags: of a pool (`rust`), of one whose hands
//! keep up to 8 tags (`rust-cached`), or of a list behind a mutex of `std` with a condition variable (`rust-list`).
//!
//! Each thread gets a tag, holds it for some microseconds, and gives it back. 0 is about a microsecond of work; anything
//! else is a sleep. It prints thousands of rounds a second, and for each round the processor time in microseconds and the
//! voluntary switches, as `bench/waits.c` does in C.
use std::error::Error;
use std::fs::read_to_string;
use std::hint::black_box;
use std::sync::atomic::{AtomicBool, AtomicU64, Ordering::Relaxed};
use std::sync::{Condvar, Mutex};
use std::thread;
use std::time::Duration;
use tags::{Hand, Options, Pool};

/// A list of free tags.
struct List {
    free: Mutex<Vec<u32>>,
    freed: Condvar,
}

impl List {
    fn get(&self) -> u32 {
        let free = self.free.lock().expect("nobody panics");
        let mut free = self
            .freed
            .wait_while(free, |free| free.is_empty())
            .expect("nobody panics");
        free.pop().expect("a tag is free")
    }

    fn give(&self, tag: u32) {
        self.free.lock().expect("nobody panics").push(tag);
        self.freed.notify_one();
    }
}

/// About a microsecond. It is a function of its own, so that what stands around it does not change its speed.
#[inline(never)]
fn work(tag: u32) {
    (0..600).for_each(|it| {
        black_box(tag + it);
    });
}

struct Run {
    hold: Duration,
    is_over: AtomicBool,
    rounds: AtomicU64,
    switches: AtomicU64,
}

impl Run {
    fn hold(&self, tag: u32) {
        if self.hold.is_zero() {
            work(tag);
        } else {
            thread::sleep(self.hold);
        }
    }

    /// Goes round until the time is up.
    fn go_round(&self, round: impl Fn()) {
        let mut rounds = 0;
        while !self.is_over.load(Relaxed) {
            round();
            rounds += 1;
        }
        self.rounds.fetch_add(rounds, Relaxed);
        self.switches.fetch_add(switches(), Relaxed);
    }

    fn of_pool(&self, hand: &Hand) {
        self.go_round(|| {
            let tag = hand.get_blocking().expect("there are tags");
            self.hold(tag.number());
        });
        hand.flush();
    }

    fn of_list(&self, list: &List) {
        self.go_round(|| {
            let tag = list.get();
            self.hold(tag);
            list.give(tag);
        });
    }
}

/// The voluntary switches of this thread.
fn switches() -> u64 {
    let status = read_to_string("/proc/thread-self/status").unwrap_or_default();
    let line = status
        .lines()
        .find_map(|it| it.strip_prefix("voluntary_ctxt_switches:"));
    line.and_then(|it| it.trim().parse().ok()).unwrap_or(0)
}

/// The processor time of this process, in microseconds: the kernel tells hundredths of a second.
fn processor_time() -> f64 {
    let stat = read_to_string("/proc/self/stat").unwrap_or_default();
    let after_name = stat.rsplit(") ").next().unwrap_or_default();
    let fields: Vec<&str> = after_name.split(' ').collect();
    let ticks = |at: usize| fields.get(at).and_then(|it| it.parse::<f64>().ok()).unwrap_or(0.0);
    (ticks(11) + ticks(12)) * 10_000.0
}

fn main() -> Result<(), Box<dyn Error>> {
    let words: Vec<String> = std::env::args().skip(1).collect();
    let [contender, threads, tags, us, seconds] = words.as_slice() else {
        return Err("usage: waits CONTENDER THREADS TAGS MICROSECONDS SECONDS".into());
    };
    let (threads, tags, us): (u32, u32, u64) = (threads.parse()?, tags.parse()?, us.parse()?);
    let time = Duration::from_secs_f64(seconds.parse()?);
    let cache = if contender == "rust-cached" { 8 } else { 0 };
    let pool = Pool::open(&Options {
        cache,
        ..Options::new(tags, threads)
    })?;
    let list = List {
        free: Mutex::new((0..tags).collect()),
        freed: Condvar::new(),
    };
    let run = Run {
        hold: Duration::from_micros(us),
        is_over: AtomicBool::new(false),
        rounds: AtomicU64::new(0),
        switches: AtomicU64::new(0),
    };
    thread::scope(|scope| -> tags::Result<()> {
        for _ in 0..threads {
            let hand = pool.join()?;
            match contender.as_str() {
                "rust-list" => scope.spawn(|| run.of_list(&list)),
                _ => scope.spawn(|| {
                    let hand = hand;
                    run.of_pool(&hand);
                }),
            };
        }
        thread::sleep(time);
        run.is_over.store(true, Relaxed);
        Ok(())
    })?;
    let rounds = run.rounds.load(Relaxed) as f64;
    let switches = run.switches.load(Relaxed) as f64 / rounds;
    let processor = processor_time() / rounds;
    println!(
        "{:.1} {processor:.2} {switches:.2}",
        rounds / time.as_secs_f64() / 1000.0
    );
    Ok(())
}
