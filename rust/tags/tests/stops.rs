//! A stop ends each kind of wait, now and from then on, and tags still go back.
use asleep::Asleep;
use std::future::Future;
use std::pin::{pin, Pin};
use std::sync::Arc;
use std::task::{Context, Poll, Wake, Waker};
use std::thread::{self, Thread};
use std::time::Duration;
use tags::{Error, Options, Pool, SharedHand};

mod asleep;

struct Unpark(Thread);

impl Wake for Unpark {
    fn wake(self: Arc<Self>) {
        self.0.unpark();
    }
}

fn block_on<T>(future: impl Future<Output = T>) -> T {
    let waker = Waker::from(Arc::new(Unpark(thread::current())));
    let mut future = pin!(future);
    loop {
        match future.as_mut().poll(&mut Context::from_waker(&waker)) {
            Poll::Ready(value) => return value,
            Poll::Pending => thread::park(),
        }
    }
}

/// Waits until so many wait, futures among them.
fn await_waits(pool: &Pool, count: u32) {
    while pool.waiting() < count {
        thread::yield_now();
    }
}

#[test]
fn each_kind_of_wait_ends() {
    static ASLEEP: Asleep = Asleep::new();
    let options = Options {
        reserved: 1,
        ..Options::new(2, 8)
    };
    let pool = Pool::open_with_sleeper(&options, &ASLEEP, |_| ()).unwrap();
    let holder = pool.join().unwrap();
    let tags = [holder.get().unwrap().unwrap(), holder.get_reserved().unwrap().unwrap()];
    let long = Duration::from_secs(3600);
    thread::scope(|scope| {
        let shared = pool.join().unwrap().into_shared();
        let hands = [(); 6].map(|()| pool.join().unwrap());
        let [first, second, third, fourth, fifth, sixth] = hands;
        let waits = [
            scope.spawn(move || first.get_blocking().map(drop)),
            scope.spawn(move || second.get_timeout(long).map(drop)),
            scope.spawn(move || block_on(third.get_async()).map(drop)),
            scope.spawn(move || fourth.get_reserved_blocking().map(drop)),
            scope.spawn(move || fifth.get_reserved_timeout(long).map(drop)),
            scope.spawn(move || block_on(sixth.get_reserved_async()).map(drop)),
        ];
        let others = [(); 4].map(|()| shared.clone());
        let [first, second, third, fourth] = others;
        let shared_waits = [
            scope.spawn(move || first.get_blocking().map(drop)),
            scope.spawn(move || second.get_timeout(long).map(drop)),
            scope.spawn(move || block_on(shared.get_async()).map(drop)),
            scope.spawn(move || third.get_reserved_blocking().map(drop)),
            scope.spawn(move || block_on(fourth.get_reserved_async()).map(drop)),
        ];
        await_waits(&pool, 11);
        ASLEEP.wait_for(7);
        pool.stop();
        for wait in waits.into_iter().chain(shared_waits) {
            assert_eq!(wait.join().unwrap(), Err(Error::Stopped));
        }
    });
    drop(tags);
    assert_eq!(holder.get_blocking().unwrap_err(), Error::Stopped);
    assert_eq!(holder.get_reserved_blocking().unwrap_err(), Error::Stopped);
    assert_eq!(holder.get_timeout(long).unwrap_err(), Error::Stopped);
    assert_eq!(block_on(holder.get_async()).map(drop).unwrap_err(), Error::Stopped);
    assert!(holder.get().unwrap().is_some());
    drop(holder);
    assert_eq!(pool.close().unwrap().back, 3);
}

#[test]
fn a_wait_that_began_before_a_stop_ends_though_the_pool_is_resumed() {
    static ASLEEP: Asleep = Asleep::new();
    let pool = Pool::open_with_sleeper(&Options::new(1, 4), &ASLEEP, |_| ()).unwrap();
    let holder = pool.join().unwrap();
    let tag = holder.get().unwrap().unwrap();
    thread::scope(|scope| {
        let [first, second, third] = [(); 3].map(|()| pool.join().unwrap());
        let shared = second.into_shared();
        let clone = shared.clone();
        let waits = [
            scope.spawn(move || first.get_blocking().map(drop)),
            scope.spawn(move || shared.get_blocking().map(drop)),
            scope.spawn(move || block_on(clone.get_async()).map(drop)),
            scope.spawn(move || block_on(third.get_async()).map(drop)),
            scope.spawn(|| pool.join_blocking().map(drop)),
        ];
        await_waits(&pool, 4);
        ASLEEP.wait_for(3);
        pool.stop();
        pool.resume();
        for wait in waits.into_iter().take(4) {
            assert_eq!(wait.join().unwrap(), Err(Error::Stopped));
        }
    });
    drop(tag);
    assert!(holder.get_blocking().is_ok());
}

fn poll_once<F: Future + Unpin>(future: &mut F) -> Poll<F::Output> {
    Pin::new(future).poll(&mut Context::from_waker(&Waker::from(Arc::new(Unpark(
        thread::current(),
    )))))
}

#[test]
fn a_stop_ends_no_wait_that_began_after_the_resume() {
    let pool = Pool::open(&Options::new(1, 2)).unwrap();
    let (hand, holder) = (pool.join().unwrap().into_shared(), pool.join().unwrap());
    let tag = holder.get().unwrap();
    let [mut before, mut also_before, mut after] = [(); 3].map(|()| hand.get_async());
    assert!(poll_once(&mut before).is_pending() && poll_once(&mut also_before).is_pending());
    pool.stop();
    pool.resume();
    assert!(poll_once(&mut after).is_pending());
    for future in [&mut before, &mut also_before] {
        let Poll::Ready(Err(error)) = poll_once(future) else {
            panic!("a stop has ended this wait");
        };
        assert_eq!(error, Error::Stopped);
    }
    assert_eq!(pool.waiting(), 1);
    drop(tag);
    assert!(matches!(poll_once(&mut after), Poll::Ready(Ok(_))));
    assert_eq!(pool.waiting(), 0);
}

#[test]
fn a_thread_sleeps_with_a_hand_whose_future_was_stopped_and_not_polled_since() {
    static ASLEEP: Asleep = Asleep::new();
    let pool = Pool::open_with_sleeper(&Options::new(1, 2), &ASLEEP, |_| ()).unwrap();
    let (hand, holder) = (pool.join().unwrap(), pool.join().unwrap());
    let number = holder.get_blocking().unwrap().into_number();
    let mut future = hand.get_async();
    assert!(poll_once(&mut future).is_pending());
    pool.stop();
    pool.resume();
    thread::scope(|scope| {
        scope.spawn(move || {
            ASLEEP.wait_for(1);
            drop(holder.claim(number).unwrap());
        });
        assert_eq!(hand.get_blocking().unwrap().number(), number);
    });
    assert!(matches!(poll_once(&mut future), Poll::Ready(Err(Error::Stopped))));
    assert_eq!(pool.waiting(), 0);
}

/// A waker that uses the pool, and the hand that its task shares with others.
struct Meddler(Pool, SharedHand);

impl Wake for Meddler {
    fn wake(self: Arc<Self>) {
        drop(self.0.join());
        assert!(self.1.get().is_ok());
        self.1.flush();
    }
}

#[test]
fn a_waker_may_use_the_pool_and_the_hand() {
    for cache in [0, 2] {
        let options = Options {
            cache,
            ..Options::new(1, 4)
        };
        let meddler = || {
            let pool = Pool::open(&options).unwrap();
            let hand = pool.join().unwrap().into_shared();
            Arc::new(Meddler(pool, hand))
        };
        for ends_by in 0..3 {
            let meddler = meddler();
            let waker = Waker::from(Arc::clone(&meddler));
            let tag = meddler.1.get().unwrap().unwrap();
            let mut future = meddler.1.get_async();
            let mut poll = || Pin::new(&mut future).poll(&mut Context::from_waker(&waker));
            assert!(poll().is_pending());
            match ends_by {
                0 => drop(tag),
                1 => meddler.0.stop(),
                _ => drop((tag, meddler.1.get())),
            }
            match poll() {
                Poll::Ready(Ok(tag)) => assert_eq!(tag.number(), 0),
                Poll::Ready(Err(error)) => assert_eq!((error, ends_by), (Error::Stopped, 1)),
                Poll::Pending => unreachable!("a tag is free, or all waits have ended"),
            }
        }
    }
}
