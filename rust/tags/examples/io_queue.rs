//! An I/O queue of eight threads. Five submit requests: each takes a tag, and waits while none is free, fills the slot
//! of the tag with the number of the request, posts the tag and sends it to the device. Three complete: each takes the
//! next tag from the device, reads the slot, carries the request out and drops the tag, which may wake a submitter.
use std::collections::VecDeque;
use std::error::Error;
use std::sync::atomic::{AtomicU32, Ordering::Relaxed};
use std::sync::{Condvar, Mutex};
use std::thread;
use tags::{Hand, Options, Pool, Totals};

const SUBMITTERS: usize = 5;
const COMPLETERS: usize = 3;
const REQUESTS: usize = 60_000;
const TAGS: u32 = 16;

struct Request {
    bytes: u32,
    /// How often the request was carried out.
    done: AtomicU32,
}

/// Tags on their way to the completers.
#[derive(Default)]
struct Device {
    queue: Mutex<Queue>,
    filled: Condvar,
}

#[derive(Default)]
struct Queue {
    tags: VecDeque<u32>,
    closed: bool,
}

impl Device {
    fn push(&self, tag: u32) {
        self.queue.lock().unwrap().tags.push_back(tag);
        self.filled.notify_one();
    }

    /// Waits for the next tag, and returns `None` once the device is closed and empty.
    fn pop(&self) -> Option<u32> {
        let queue = self.queue.lock().unwrap();
        let is_idle = |queue: &mut Queue| queue.tags.is_empty() && !queue.closed;
        let mut queue = self.filled.wait_while(queue, is_idle).unwrap();
        queue.tags.pop_front()
    }

    fn close(&self) {
        self.queue.lock().unwrap().closed = true;
        self.filled.notify_all();
    }
}

fn submit(hand: &Hand, device: &Device, requests: impl Iterator<Item = usize>) -> tags::Result<()> {
    for request in requests {
        let tag = hand.get_blocking()?;
        tag.write(request as u64);
        device.push(tag.post());
    }
    Ok(())
}

fn complete(hand: &Hand, device: &Device, requests: &[Request]) -> tags::Result<()> {
    while let Some(number) = device.pop() {
        let tag = hand.take(number)?;
        requests[tag.read() as usize].done.fetch_add(1, Relaxed);
    }
    Ok(())
}

fn run(pool: &Pool, requests: &[Request]) -> tags::Result<()> {
    let device = &Device::default();
    thread::scope(|scope| {
        for _ in 0..COMPLETERS {
            let hand = pool.join()?;
            scope.spawn(move || complete(&hand, device, requests).unwrap());
        }
        let mut submitters = Vec::new();
        for first in 0..SUBMITTERS {
            let hand = pool.join()?;
            let mine = (first..REQUESTS).step_by(SUBMITTERS);
            submitters.push(scope.spawn(move || submit(&hand, device, mine).unwrap()));
        }
        for submitter in submitters {
            submitter.join().unwrap();
        }
        device.close();
        Ok(())
    })
}

fn report(totals: &Totals, requests: &[Request]) {
    let done = |request: &Request| request.done.load(Relaxed);
    let once = requests.iter().filter(|it| done(it) == 1).count();
    let bytes: u64 = requests
        .iter()
        .map(|it| u64::from(it.bytes) * u64::from(done(it)))
        .sum();
    println!("requests={once}\nbytes={bytes}");
    println!("got={}\nback={}", totals.got, totals.back);
    println!("held={}\nposted={}", totals.held, totals.posted);
}

fn main() -> Result<(), Box<dyn Error>> {
    let pool = Pool::open(&Options::new(TAGS, (SUBMITTERS + COMPLETERS) as u32))?;
    let requests: Vec<Request> = (0..REQUESTS as u32)
        .map(|number| Request {
            bytes: 512 * (1 + number % 8),
            done: AtomicU32::new(0),
        })
        .collect();
    run(&pool, &requests)?;
    report(&pool.close()?, &requests);
    Ok(())
}
