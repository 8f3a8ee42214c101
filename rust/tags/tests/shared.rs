//! Hands that threads share: more threads than hands, threads that come and go, and tags that others drop.
use std::cell::Cell;
use std::future::Future;
use std::pin::Pin;
use std::sync::atomic::{AtomicBool, AtomicU32, Ordering::Relaxed};
use std::sync::{Arc, Mutex};
use std::task::{Context, Poll, Wake, Waker};
use std::thread;
use std::time::Duration;
use tags::{default_sleeper, Error, Options, OwnedTag, Pool, SharedHands, Sleeper};

const THREADS: usize = 12;

fn open(total: u32, hands: u32, cache: u32) -> Pool {
    let options = Options {
        cache,
        ..Options::new(total, hands)
    };
    Pool::open(&options).unwrap()
}

/// Closes a pool to which all tags came back.
fn close(pool: Pool) -> u64 {
    let totals = pool.close().unwrap();
    assert_eq!((totals.held, totals.posted), (0, 0));
    assert_eq!(totals.got, totals.back);
    totals.got
}

#[test]
fn a_pool_shares_as_many_hands_as_it_has() {
    let pool = open(4, 3, 0);
    for count in [4, u32::MAX] {
        assert_eq!(pool.share(count).unwrap_err(), Error::NoHand);
    }
    let hands = pool.share(3).unwrap();
    assert_eq!((hands.count(), pool.share(0).unwrap_err()), (3, Error::NoHand));
    let tag = hands.get().unwrap().unwrap();
    drop(hands);
    // The tag keeps one of them.
    let rest = pool.share(2).unwrap();
    assert_eq!(pool.join().unwrap_err(), Error::NoHand);
    drop((tag, rest));
    assert!(pool.share(0).unwrap().count() >= 1);
    assert_eq!(close(pool), 1);
}

#[test]
fn tags_are_claimed_and_taken_by_any_thread() {
    let pool = open(4, 3, 0);
    let hands = pool.share(2).unwrap();
    let own = pool.join().unwrap();
    let numbers: Vec<u32> = (0..3).map(|_| hands.get_blocking().unwrap().into_number()).collect();
    for (at, number) in numbers.iter().enumerate() {
        let (cloned, number) = (hands.clone(), *number);
        let claimed = thread::spawn(move || cloned.claim(number).unwrap()).join().unwrap();
        assert_eq!(hands.claim(number).unwrap_err(), Error::NotHeld);
        claimed.write(at as u64);
        assert_eq!(own.take(claimed.post()).unwrap().read(), at as u64);
    }
    assert_eq!(hands.claim(u32::MAX).unwrap_err(), Error::NotHeld);
    let number = own.get().unwrap().unwrap().post();
    assert_eq!(hands.take(number).unwrap().number(), number);
    assert_eq!(hands.take(number).unwrap_err(), Error::NotPosted);
    assert_eq!(hands.get_reserved().unwrap_err(), Error::NoReserved);
    drop((hands, own));
    assert_eq!(close(pool), 4);
}

/// Gets tags, and drops its own or one that another thread left here.
fn work(hands: &SharedHands, users: &[AtomicBool], left: &Mutex<Vec<OwnedTag>>, rounds: usize) {
    for round in 0..rounds {
        let Some(tag) = hands.get().unwrap() else { continue };
        let number = tag.number() as usize;
        assert!(!users[number].swap(true, Relaxed), "tag {number} has two users");
        tag.write(1000 + number as u64);
        let mut left = left.lock().unwrap();
        left.push(tag);
        let at = round % left.len();
        let other = left.swap_remove(at);
        drop(left);
        assert_eq!(other.read(), 1000 + u64::from(other.number()));
        assert!(users[other.number() as usize].swap(false, Relaxed));
    }
}

#[test]
fn threads_come_and_go() {
    for (count, cache) in [(1, 0), (2, 0), (3, 2), (5, 2)] {
        let pool = open(40, count, cache);
        let hands = pool.share(count).unwrap();
        let users: Vec<AtomicBool> = (0..40).map(|_| AtomicBool::new(false)).collect();
        let left = Mutex::new(Vec::new());
        for _ in 0..3 {
            thread::scope(|threads| {
                for _ in 0..THREADS {
                    threads.spawn(|| work(&hands, &users, &left, 200));
                }
            });
        }
        drop((left, hands));
        close(pool);
    }
}

#[test]
fn threads_sleep_while_others_use_all_hands() {
    for (total, count, cache) in [(1, 1, 0), (1, 2, 0), (3, 2, 0), (9, 3, 2)] {
        let pool = open(total, count + 1, cache);
        let hands = pool.share(count).unwrap();
        let own = pool.join().unwrap();
        thread::scope(|threads| {
            for thread in 0..THREADS {
                let hands = &hands;
                threads.spawn(move || {
                    for round in 0..200 {
                        let time = Duration::from_micros(round % 50);
                        let found = if thread % 2 == 0 {
                            None
                        } else {
                            hands.get_timeout(time).unwrap()
                        };
                        let tag = found.map_or_else(|| hands.get_blocking(), Ok).unwrap();
                        thread::yield_now();
                        drop(tag);
                    }
                });
            }
            for _ in 0..200 {
                drop(own.get_blocking().unwrap());
            }
            own.flush();
        });
        assert_eq!(pool.waiting(), 0);
        drop((hands, own));
        close(pool);
    }
}

#[test]
fn nobody_sleeps_beside_what_these_hands_keep() {
    let pool = open(1, 3, 1);
    let (hands, own) = (pool.share(2).unwrap(), pool.join().unwrap());
    for _ in 0..4 {
        // It is kept now, by whichever hand.
        drop(hands.get_blocking().unwrap());
        thread::scope(|threads| drop(threads.spawn(|| drop(hands.get_blocking().unwrap()))));
    }
    assert!(own.get().unwrap().is_none());
    hands.flush();
    assert!(own.get().unwrap().is_some());
    drop((hands, own));
    close(pool);
}

/// Each thread says on which processor it runs.
struct Processors;

thread_local! {
    static PROCESSOR: Cell<usize> = const { Cell::new(0) };
}

impl Sleeper for Processors {
    fn sleep(&self, word: &AtomicU32, expected: u32, end: Option<Duration>) {
        default_sleeper().sleep(word, expected, end);
    }

    fn wake(&self, word: &AtomicU32) {
        default_sleeper().wake(word);
    }

    fn now(&self) -> Duration {
        default_sleeper().now()
    }

    fn processor(&self) -> usize {
        PROCESSOR.get()
    }
}

#[derive(Default)]
struct Woken(AtomicBool);

impl Wake for Woken {
    fn wake(self: Arc<Self>) {
        self.0.store(true, Relaxed);
    }
}

#[test]
fn no_future_waits_beside_what_these_hands_keep() {
    let options = Options {
        cache: 2,
        ..Options::new(1, 2)
    };
    let pool = Pool::open_with_sleeper(&options, &Processors, |_| ()).unwrap();
    let hands = pool.share(2).unwrap();
    for round in 0..4 {
        // The hand of this processor keeps it, and that of the other one finds none.
        PROCESSOR.set(round % 2);
        drop(hands.get().unwrap().unwrap());
        PROCESSOR.set(1 - round % 2);
        assert!(hands.get().unwrap().is_none());
        let (mut future, woken) = (hands.get_async(), Arc::<Woken>::default());
        let waker = Waker::from(Arc::clone(&woken));
        let mut poll = || Pin::new(&mut future).poll(&mut Context::from_waker(&waker));
        assert!(poll().is_pending());
        assert!(woken.0.load(Relaxed));
        assert!(matches!(poll(), Poll::Ready(Ok(_))));
    }
    drop(hands);
    close(pool);
}

#[test]
fn a_stop_ends_all_waits() {
    let pool = open(1, 2, 0);
    let hands = pool.share(2).unwrap();
    let tag = hands.get_blocking().unwrap();
    thread::scope(|threads| {
        let waits: Vec<_> = (0..THREADS)
            .map(|_| threads.spawn(|| hands.get_blocking().map(drop)))
            .collect();
        while pool.waiting() < THREADS as u32 {
            thread::yield_now();
        }
        pool.stop();
        pool.resume();
        for wait in waits {
            assert_eq!(wait.join().unwrap(), Err(Error::Stopped));
        }
    });
    drop((tag, hands));
    close(pool);
}
