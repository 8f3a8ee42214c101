//! Calls in a signal's handler, as in an interrupt: with a hand of its own, in the midst of any call of the thread
//! below it.
#![cfg(all(target_os = "linux", not(tags_park_threads)))]
use std::ffi::c_int;
use std::ptr::null_mut;
use std::sync::atomic::{AtomicBool, AtomicPtr, AtomicU32, AtomicU64, Ordering::SeqCst};
use std::thread;
use tags::{default_sleeper, Error, Hand, Kind, Options, Pool};

#[path = "../examples/driver.rs"]
#[allow(dead_code, unused_attributes, reason = "it is a library without std of its own")]
mod driver;

const SIGUSR1: c_int = 10;
const SIGUSR2: c_int = 12;

unsafe extern "C" {
    fn signal(number: c_int, handler: extern "C" fn(c_int)) -> usize;
    safe fn pthread_self() -> usize;
    fn pthread_kill(thread: usize, number: c_int) -> c_int;
}

/// Has a thread work while it is interrupted again and again, until its work is over.
fn interrupt(number: c_int, handler: extern "C" fn(c_int), work: impl FnOnce() + Send) {
    let (worker, is_over, is_left) = (
        AtomicPtr::new(null_mut::<u8>()),
        AtomicBool::new(false),
        AtomicBool::new(false),
    );
    // SAFETY: the handler calls what may be called in one.
    unsafe { signal(number, handler) };
    thread::scope(|threads| {
        threads.spawn(|| {
            worker.store(pthread_self() as *mut u8, SeqCst);
            work();
            is_over.store(true, SeqCst);
            while !is_left.load(SeqCst) {
                thread::yield_now();
            }
        });
        while !is_over.load(SeqCst) {
            let worker = worker.load(SeqCst);
            if !worker.is_null() {
                // SAFETY: the thread goes on until this one has left it alone.
                unsafe { pthread_kill(worker as usize, number) };
            }
            thread::yield_now();
        }
        is_left.store(true, SeqCst);
    });
}

const DEPTH: usize = 64;

/// No request.
const NONE: u32 = u32::MAX;

/// The device has the number of each request that it has carried out.
static DEVICE: [AtomicU32; DEPTH] = [const { AtomicU32::new(NONE) }; DEPTH];
static COMPLETER: AtomicPtr<driver::Interrupt> = AtomicPtr::new(null_mut());
static COMPLETED: AtomicU64 = AtomicU64::new(0);
/// The interrupts by which any was completed.
static COMPLETIONS: AtomicU32 = AtomicU32::new(0);

extern "C" fn complete(_: c_int) {
    // SAFETY: the one thread that is sent this signal has it blocked meanwhile, and nothing else uses this.
    let completer = unsafe { &mut *COMPLETER.load(SeqCst) };
    let before = COMPLETED.load(SeqCst);
    for request in &DEVICE {
        let number = request.swap(NONE, SeqCst);
        if number != NONE {
            completer.complete(number, 0).unwrap();
            COMPLETED.fetch_add(1, SeqCst);
        }
    }
    COMPLETIONS.fetch_add(u32::from(COMPLETED.load(SeqCst) > before), SeqCst);
}

#[test]
fn a_driver_completes_in_an_interrupt() {
    let (queue, mut interrupt_of) = driver::Queue::open(DEPTH as u32, 1, default_sleeper()).unwrap();
    COMPLETER.store(&mut interrupt_of, SeqCst);
    let mut submitted = 0;
    interrupt(SIGUSR1, complete, || {
        let submitter = queue.join().unwrap();
        while COMPLETIONS.load(SeqCst) < 3_000 {
            let ring = |number: u32, _| DEVICE[number as usize].store(number, SeqCst);
            submitter.submit(submitted, ring).unwrap();
            submitted += 1;
        }
        drop(submitter);
        queue.shut_down();
    });
    assert_eq!(COMPLETED.load(SeqCst), submitted);
}

static OWN: AtomicPtr<Hand> = AtomicPtr::new(null_mut());
static INTERRUPTS: AtomicU32 = AtomicU32::new(0);

/// What may be called there, by the table of docs/USING.md.
fn carry_out(hand: &Hand) -> Result<(), Error> {
    drop((
        hand.get()?,
        hand.get_reserved()?,
        hand.get_shallow(4)?,
        hand.get_exactly(3)?,
    ));
    if let Some(tag) = hand.get()? {
        assert_eq!((tag.write(7), tag.read()).1, 7);
        tag.note(1)?;
        let number = hand.claim(tag.into_number())?.post();
        drop(hand.take(number)?);
        assert!(!hand.holds(number)?);
    }
    if let Some(batch) = hand.get_batch(2)? {
        hand.take_batch(batch.post())?.into_tags().for_each(drop);
    }
    let _ = (hand.busy(&mut [0])?, hand.show(Kind::Ordinary), hand.waiting());
    hand.flush();
    Ok(())
}

extern "C" fn call_all(_: c_int) {
    // SAFETY: as above.
    carry_out(unsafe { &*OWN.load(SeqCst) }).unwrap();
    INTERRUPTS.fetch_add(1, SeqCst);
}

/// Calls that take locks, that sleep, and all others.
fn work(pool: &Pool) {
    let hand = pool.join_blocking().unwrap();
    drop(hand.get_blocking().unwrap());
    drop(hand.get_many(2).unwrap());
    let number = hand.get_blocking().unwrap().post();
    drop(hand.take(number).unwrap());
    let (sizes, busy) = (pool.show(Kind::Ordinary), pool.noted_tags().unwrap().count());
    assert!(sizes.depth == 6 && busy <= 8 && pool.busy_tags().count() <= 8);
    hand.flush();
    assert_eq!(pool.resize(9), Err(Error::HandsOut));
}

#[test]
fn what_may_be_called_in_an_interrupt() {
    // The clock is asked before a handler asks it.
    let _ = default_sleeper().now();
    for cache in [0, 1] {
        let options = Options {
            reserved: 2,
            cache,
            notes: true,
            ..Options::new(8, 3)
        };
        let pool = Pool::open(&options).unwrap();
        let mut hand = pool.join().unwrap();
        OWN.store(&mut hand, SeqCst);
        INTERRUPTS.store(0, SeqCst);
        let ends = AtomicBool::new(false);
        thread::scope(|threads| {
            // So few tags that the other two sleep now and then.
            threads.spawn(|| {
                let other = pool.join().unwrap();
                while !ends.load(SeqCst) {
                    let some = [(); 5].map(|()| other.get().unwrap());
                    thread::yield_now();
                    drop(some);
                }
            });
            interrupt(SIGUSR2, call_all, || {
                while INTERRUPTS.load(SeqCst) < 300 {
                    work(&pool);
                }
            });
            ends.store(true, SeqCst);
        });
        OWN.store(null_mut(), SeqCst);
    }
}
