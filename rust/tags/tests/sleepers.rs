//! Pools whose threads sleep by means of the program's, as in a kernel.
use asleep::Asleep;
use std::cell::Cell;
use std::panic::{catch_unwind, AssertUnwindSafe};
use std::sync::atomic::{AtomicBool, AtomicU32, AtomicUsize, Ordering::SeqCst};
use std::sync::{Condvar, Mutex};
use std::thread;
use std::time::{Duration, Instant};
use tags::{default_sleeper, Error, Hand, Options, Pool, Sleeper};

mod asleep;

/// One list of all that sleep, which every wake wakes.
struct Own {
    lock: Mutex<()>,
    woken: Condvar,
    sleeps: AtomicUsize,
    wakes: AtomicUsize,
}

impl Own {
    const fn new() -> Own {
        Own {
            lock: Mutex::new(()),
            woken: Condvar::new(),
            sleeps: AtomicUsize::new(0),
            wakes: AtomicUsize::new(0),
        }
    }
}

impl Sleeper for Own {
    fn sleep(&self, word: &AtomicU32, expected: u32, end: Option<Duration>) {
        self.sleeps.fetch_add(1, SeqCst);
        let lock = self.lock.lock().unwrap();
        if word.load(SeqCst) != expected {
            return;
        }
        match end {
            None => drop(self.woken.wait(lock).unwrap()),
            Some(end) => {
                let left = end.saturating_sub(self.now());
                drop(self.woken.wait_timeout(lock, left).unwrap());
            }
        }
    }

    fn wake(&self, _: &AtomicU32) {
        self.wakes.fetch_add(1, SeqCst);
        drop(self.lock.lock().unwrap());
        self.woken.notify_all();
    }

    fn now(&self) -> Duration {
        default_sleeper().now()
    }
}

#[test]
fn each_kind_of_wait_sleeps_by_it() {
    static OWN: Own = Own::new();
    let pool = Pool::open_with_sleeper(&Options::new(1, 3), &OWN, |_| ()).unwrap();
    let (holder, shared) = (pool.join().unwrap(), pool.join().unwrap().into_shared());
    thread::scope(|threads| {
        for number in 0..4 {
            let (pool, shared) = (&pool, shared.clone());
            threads.spawn(move || {
                for _ in 0..200 {
                    match number {
                        0 => drop(shared.get_blocking().unwrap()),
                        1 => drop(shared.get_timeout(Duration::from_secs(600)).unwrap().unwrap()),
                        _ => {
                            let hand = pool.join_blocking().unwrap();
                            let tag = hand.get_blocking().unwrap();
                            thread::yield_now();
                            drop(tag);
                        }
                    }
                }
            });
        }
        for _ in 0..200 {
            drop(holder.get_timeout(Duration::from_secs(600)).unwrap().unwrap());
        }
    });
    let begin = Instant::now();
    let tag = holder.get_blocking().unwrap();
    assert!(shared.get_timeout(Duration::from_millis(5)).unwrap().is_none());
    assert!(!pool.drain_timeout(Duration::from_millis(5)));
    assert!(begin.elapsed() >= Duration::from_millis(10));
    thread::scope(|threads| {
        let sleeps = OWN.sleeps.load(SeqCst);
        let drain = threads.spawn(|| pool.drain());
        while OWN.sleeps.load(SeqCst) == sleeps {
            thread::yield_now();
        }
        drop(tag);
        drain.join().unwrap();
    });
    assert!(OWN.sleeps.load(SeqCst) > 0 && OWN.wakes.load(SeqCst) > 0);
    assert_eq!(pool.waiting(), 0);
}

/// Never sleeps, and has no clock.
struct Busy;

impl Sleeper for Busy {
    fn sleep(&self, _: &AtomicU32, _: u32, _: Option<Duration>) {
        thread::yield_now();
    }

    fn wake(&self, _: &AtomicU32) {}

    fn now(&self) -> Duration {
        Duration::MAX
    }
}

#[test]
fn a_limit_without_a_clock_is_over() {
    let pool = Pool::open_with_sleeper(&Options::new(1, 2), &Busy, |_| ()).unwrap();
    let (hand, other) = (pool.join().unwrap(), pool.join().unwrap());
    let long = Duration::from_secs(3600);
    let tag = hand.get_timeout(long).unwrap().unwrap();
    assert!(other.get_timeout(long).unwrap().is_none());
    assert!(other.get_timeout(Duration::MAX).unwrap().is_none());
    assert!(pool.join_timeout(long).unwrap().is_none() && !pool.drain_timeout(long));
    thread::scope(|threads| {
        let waiter = threads.spawn(move || other.get_blocking().map(|tag| tag.number()));
        while pool.waiting() == 0 {
            thread::yield_now();
        }
        drop(tag);
        assert_eq!(waiter.join().unwrap(), Ok(0));
    });
    pool.drain();
    pool.stop();
    assert_eq!(hand.get_blocking().unwrap_err(), Error::Stopped);
}

/// A thread sleeps until all may go on.
struct Late {
    sleeps: AtomicUsize,
    goes_on: AtomicBool,
}

impl Sleeper for Late {
    fn sleep(&self, _: &AtomicU32, _: u32, _: Option<Duration>) {
        self.sleeps.fetch_add(1, SeqCst);
        while !self.goes_on.load(SeqCst) {
            thread::yield_now();
        }
    }

    fn wake(&self, _: &AtomicU32) {}

    fn now(&self) -> Duration {
        Duration::ZERO
    }
}

#[test]
fn a_stop_ends_a_sleep_from_which_the_thread_wakes_after_the_resume() {
    static LATE: Late = Late {
        sleeps: AtomicUsize::new(0),
        goes_on: AtomicBool::new(false),
    };
    let pool = Pool::open_with_sleeper(&Options::new(1, 3), &LATE, |_| ()).unwrap();
    let [holder, blocking, timed] = [(); 3].map(|()| pool.join().unwrap());
    let tag = holder.get().unwrap();
    thread::scope(|threads| {
        let waits = [
            threads.spawn(move || blocking.get_blocking().map(drop)),
            threads.spawn(move || timed.get_timeout(Duration::from_secs(1)).map(drop)),
            threads.spawn(|| pool.join_blocking().map(drop)),
        ];
        while LATE.sleeps.load(SeqCst) < 3 {
            thread::yield_now();
        }
        pool.stop();
        pool.resume();
        LATE.goes_on.store(true, SeqCst);
        let [blocking, timed, join] = waits.map(|it| it.join().unwrap());
        assert_eq!((blocking, timed), (Err(Error::Stopped), Err(Error::Stopped)));
        // One of the hands may have come back before.
        assert!(matches!(join, Ok(()) | Err(Error::Stopped)));
    });
    drop(tag);
    assert!(holder.get_blocking().is_ok());
}

thread_local! {
    /// How many sleeps and looks at the clock of this thread succeed until one panics; below 0 none does.
    static LEFT: Cell<i32> = const { Cell::new(-1) };
}

fn look() {
    if LEFT.replace(LEFT.get() - 1) == 0 {
        panic!("cancelled");
    }
}

/// Panics as a runtime does that cancels a thread.
struct Cancels(Asleep);

static CANCELS: Cancels = Cancels(Asleep::new());

impl Sleeper for Cancels {
    fn sleep(&self, word: &AtomicU32, expected: u32, end: Option<Duration>) {
        look();
        self.0.sleep(word, expected, end);
    }

    fn wake(&self, word: &AtomicU32) {
        self.0.wake(word);
    }

    fn now(&self) -> Duration {
        look();
        self.0.now()
    }
}

const SHORT: Duration = Duration::from_millis(5);

/// Each way in which a thread sleeps for what does not come.
const WAITS: [fn(&Pool, Hand); 8] = [
    |_, hand| drop(hand.get_timeout(SHORT)),
    |_, hand| drop(hand.get_reserved_timeout(SHORT)),
    |_, hand| drop(hand.next_timeout(0, SHORT)),
    |_, hand| drop(hand.into_shared().get_timeout(SHORT)),
    |_, hand| drop(hand.into_shared().get_reserved_timeout(SHORT)),
    |pool, _hand| drop(pool.join_timeout(SHORT)),
    |pool, _| assert!(!pool.drain_timeout(SHORT)),
    |pool, _| assert_eq!(pool.drain_list_timeout(&[1], SHORT), Ok(false)),
];

/// A panic at each sleep and each look at the clock: nothing is left of the wait, and the next tag goes to one that
/// sleeps.
#[test]
fn a_wait_ends_where_the_sleeper_panics() {
    let options = Options {
        reserved: 1,
        queues: 1,
        ..Options::new(2, 3)
    };
    for wait in WAITS {
        let mut panics = 0;
        loop {
            let pool = Pool::open_with_sleeper(&options, &CANCELS, |_| ()).unwrap();
            let [holder, other, hand] = [(); 3].map(|()| pool.join().unwrap());
            let tags = (holder.get_blocking().unwrap(), holder.get_reserved_blocking().unwrap());
            LEFT.set(panics);
            let cancelled = catch_unwind(AssertUnwindSafe(|| wait(&pool, hand))).is_err();
            LEFT.set(-1);
            assert_eq!(pool.waiting(), 0);
            let same = pool.join().unwrap();
            thread::scope(|threads| {
                let waits = threads.spawn(move || other.get_blocking().map(drop));
                CANCELS.0.wait_for(1);
                drop(tags);
                assert_eq!(waits.join().unwrap(), Ok(()));
            });
            drop((holder, same));
            assert_eq!(pool.resize(3), Ok(()));
            if !cancelled {
                break;
            }
            panics += 1;
        }
        assert!(panics > 1);
    }
}
