//! Waits for a reserved tag beside free ordinary ones, and who is told of which tag.
use asleep::Asleep;
use std::future::Future;
use std::pin::Pin;
use std::sync::atomic::{AtomicUsize, Ordering::SeqCst};
use std::sync::Arc;
use std::task::{Context, Poll, Wake, Waker};
use std::thread;
use std::time::{Duration, Instant};
use tags::{default_sleeper, Error, Options, Pool, Result, Sleeper};

mod asleep;

/// Two reserved tags, 0 and 1, then two ordinary ones.
fn open_with(hands: u32, cache: u32, sleeper: &'static dyn Sleeper) -> Pool {
    let options = Options {
        reserved: 2,
        cache,
        ..Options::new(4, hands)
    };
    Pool::open_with_sleeper(&options, sleeper, |_| ()).unwrap()
}

fn open(hands: u32, cache: u32) -> Pool {
    open_with(hands, cache, default_sleeper())
}

#[test]
fn a_sleeper_goes_past_ordinary_tags() {
    static ASLEEP: Asleep = Asleep::new();
    for cache in [0, 2] {
        let pool = open_with(3, cache, &ASLEEP);
        let [holder, waiter, other] = [(); 3].map(|()| pool.join().unwrap());
        let [first, second] = [(); 2].map(|()| holder.get_reserved().unwrap().unwrap());
        assert!(waiter.get_reserved().unwrap().is_none());
        thread::scope(|threads| {
            let waits = threads.spawn(move || waiter.get_reserved_blocking().map(|tag| tag.number()));
            ASLEEP.wait_for(1);
            for _ in 0..100 {
                drop(other.get_blocking().unwrap());
                drop(other.get_batch(2).unwrap());
            }
            assert!(!waits.is_finished() && pool.waiting() == 1);
            drop(second);
            assert_eq!(waits.join().unwrap(), Ok(1));
        });
        assert_eq!(pool.waiting(), 0);
        drop(first);
    }
}

#[test]
fn a_sleeper_for_an_ordinary_tag_goes_past_reserved_ones() {
    static ASLEEP: Asleep = Asleep::new();
    let pool = open_with(2, 0, &ASLEEP);
    let (holder, waiter) = (pool.join().unwrap(), pool.join().unwrap());
    let tags = holder.get_many(2).unwrap().unwrap();
    thread::scope(|threads| {
        let waits = threads.spawn(move || waiter.get_blocking().map(|tag| tag.number() >= 2));
        ASLEEP.wait_for(1);
        (0..100).for_each(|_| drop(holder.get_reserved_blocking().unwrap()));
        assert!(!waits.is_finished());
        drop(tags);
        assert_eq!(waits.join().unwrap(), Ok(true));
    });
}

#[test]
fn a_sleep_for_a_reserved_tag_gives_back_what_the_hand_keeps() {
    let pool = open(3, 2);
    let [keeper, holder, shared] = [(); 3].map(|()| pool.join().unwrap());
    let shared = shared.into_shared();
    let short = Duration::from_millis(5);
    let reserved = [(); 2].map(|()| holder.get_reserved().unwrap().unwrap());
    drop([(); 2].map(|()| keeper.get().unwrap().unwrap()));
    assert!(holder.get().unwrap().is_none());
    assert!(keeper.get_reserved_timeout(short).unwrap().is_none());
    drop([(); 2].map(|()| shared.get().unwrap().unwrap()));
    assert!(holder.get().unwrap().is_none());
    assert!(shared.get_reserved_timeout(short).unwrap().is_none());
    assert!(holder.get().unwrap().is_some());
    drop(reserved);
}

#[test]
fn a_limit_ends_each_wait_in_time() {
    let pool = open(3, 0);
    let holder = pool.join().unwrap();
    let hands = pool.share(2).unwrap();
    let reserved = [(); 2].map(|()| holder.get_reserved_timeout(Duration::ZERO).unwrap().unwrap());
    let (begin, short) = (Instant::now(), Duration::from_millis(5));
    assert!(holder.get_reserved_timeout(short).unwrap().is_none());
    assert!(hands.hand().get_reserved_timeout(short).unwrap().is_none());
    assert!(hands.get_reserved_timeout(short).unwrap().is_none());
    assert!(begin.elapsed() >= 3 * short && pool.waiting() == 0);
    assert!(hands.get_reserved_timeout(Duration::ZERO).unwrap().is_none());
    drop(reserved);
    assert!(hands.get_reserved_timeout(Duration::ZERO).unwrap().is_some());
}

#[test]
fn a_wait_that_can_not_be_is_refused() {
    let pool = Pool::open(&Options::new(1, 3)).unwrap();
    let hand = pool.join().unwrap();
    let hands = pool.share(2).unwrap();
    let (shared, long) = (hands.hand(), Duration::from_secs(3600));
    let (count, none) = (Arc::default(), Some(Error::NoReserved));
    assert_eq!(hand.get_reserved_blocking().err(), none);
    assert_eq!(hand.get_reserved_timeout(long).err(), none);
    assert_eq!(
        poll(&mut hand.get_reserved_async(), &count),
        Poll::Ready(Err(Error::NoReserved))
    );
    assert_eq!(shared.get_reserved_blocking().err(), none);
    assert_eq!(shared.get_reserved_timeout(long).err(), none);
    assert_eq!(hands.get_reserved_blocking().err(), none);
    assert_eq!(hands.get_reserved_timeout(long).err(), none);
    assert_eq!(
        poll(&mut hands.get_reserved_async(), &count),
        Poll::Ready(Err(Error::NoReserved))
    );
    pool.stop();
    assert_eq!(hand.get_reserved_blocking().err(), Some(Error::Stopped));
    assert_eq!(
        poll(&mut shared.get_reserved_async(), &count),
        Poll::Ready(Err(Error::Stopped))
    );
}

#[test]
fn a_pool_may_have_reserved_tags_alone() {
    static ASLEEP: Asleep = Asleep::new();
    let options = Options {
        reserved: 1,
        ..Options::new(1, 2)
    };
    let pool = Pool::open_with_sleeper(&options, &ASLEEP, |_| ()).unwrap();
    let (hand, waiter) = (pool.join().unwrap(), pool.join().unwrap());
    assert_eq!(hand.get_blocking().err(), Some(Error::NoSuchTag));
    let tag = hand.get_reserved_blocking().unwrap();
    thread::scope(|threads| {
        let waits = threads.spawn(move || waiter.get_reserved_blocking().map(|tag| tag.number()));
        ASLEEP.wait_for(1);
        drop(tag);
        assert_eq!(waits.join().unwrap(), Ok(0));
    });
    drop(hand);
    pool.resize(2).unwrap();
    assert_eq!(pool.join().unwrap().get_blocking().unwrap().number(), 1);
}

#[derive(Default)]
struct Count(AtomicUsize);

impl Wake for Count {
    fn wake(self: Arc<Self>) {
        self.0.fetch_add(1, SeqCst);
    }
}

/// A tag of any kind.
trait Numbered {
    fn number(&self) -> u32;
}

impl Numbered for tags::Tag<'_> {
    fn number(&self) -> u32 {
        tags::Tag::number(self)
    }
}

impl Numbered for tags::OwnedTag {
    fn number(&self) -> u32 {
        tags::OwnedTag::number(self)
    }
}

/// Polls once. Whoever is ready gives the number of its tag, and gives that back.
fn poll<G: Numbered>(future: &mut (impl Future<Output = Result<G>> + Unpin), count: &Arc<Count>) -> Poll<Result<u32>> {
    let waker = Waker::from(Arc::clone(count));
    let answer = Pin::new(future).poll(&mut Context::from_waker(&waker));
    answer.map_ok(|tag| tag.number())
}

#[test]
fn a_tag_wakes_those_that_wait_for_its_set() {
    for cache in [0, 2] {
        let pool = open(3, cache);
        let [holder, first, second] = [(); 3].map(|()| pool.join().unwrap());
        let reserved = [(); 2].map(|()| holder.get_reserved().unwrap().unwrap());
        let ordinary = holder.get_many(2).unwrap().unwrap();
        let counts: [Arc<Count>; 2] = Default::default();
        let woken = || counts.each_ref().map(|it| it.0.load(SeqCst));
        let mut waits = (first.get_reserved_async(), second.get_async());
        assert!(poll(&mut waits.0, &counts[0]).is_pending());
        assert!(poll(&mut waits.1, &counts[1]).is_pending());
        let [passed, last] = reserved;
        // A tag that is posted and taken is not free.
        let passed = holder.take(passed.post()).unwrap();
        assert_eq!(woken(), [0, 0]);
        drop(passed);
        assert_eq!(woken(), [1, 0]);
        drop(ordinary);
        assert_eq!(woken(), [1, 1]);
        drop(last);
        assert_eq!(woken(), [1, 1]);
        assert!(poll(&mut waits.1, &counts[1]).is_ready());
        assert!(poll(&mut waits.0, &counts[0]).is_ready());
        assert_eq!((pool.waiting(), woken()), (0, [1, 1]));
    }
}

#[test]
fn futures_of_both_sets_wait_behind_one_hand() {
    let pool = open(2, 0);
    let (holder, hand) = (pool.join().unwrap(), pool.join().unwrap());
    let reserved = [(); 2].map(|()| holder.get_reserved().unwrap().unwrap());
    let ordinary = holder.get_many(2).unwrap().unwrap();
    let count = Arc::default();
    let mut waits = [hand.get_reserved_async(), hand.get_async(), hand.get_reserved_async()];
    assert!(waits.iter_mut().all(|it| poll(it, &count).is_pending()));
    assert_eq!(pool.waiting(), 3);
    for refused in [hand.get_blocking(), hand.get_reserved_blocking()] {
        assert_eq!(refused.err(), Some(Error::Waiting));
    }
    drop(ordinary);
    let [first, second, third] = &mut waits;
    assert!(poll(first, &count).is_pending() && poll(third, &count).is_pending());
    assert!(matches!(poll(second, &count), Poll::Ready(Ok(2 | 3))));
    // A thread would not poll the others.
    assert!(hand.get_blocking().is_ok());
    let refused = hand.get_reserved_blocking();
    assert_eq!(refused.err(), Some(Error::Waiting));
    drop(reserved);
    assert_eq!([first, third].map(|it| poll(it, &count).is_ready()), [true; 2]);
    assert_eq!(pool.waiting(), 0);
}

#[test]
fn a_future_that_is_dropped_passes_its_reserved_tag_on() {
    let pool = open(3, 0);
    let [holder, first, second] = [(); 3].map(|()| pool.join().unwrap());
    let [kept, tag] = [(); 2].map(|()| holder.get_reserved().unwrap().unwrap());
    let counts: [Arc<Count>; 2] = Default::default();
    let (mut dropped, mut next) = (first.get_reserved_async(), second.get_reserved_async());
    assert!(poll(&mut dropped, &counts[0]).is_pending() && poll(&mut next, &counts[1]).is_pending());
    drop(tag);
    assert_eq!(counts.each_ref().map(|it| it.0.load(SeqCst)), [1, 0]);
    drop(dropped);
    assert_eq!(counts.each_ref().map(|it| it.0.load(SeqCst)), [1, 1]);
    assert_eq!(poll(&mut next, &counts[1]), Poll::Ready(Ok(1)));
    // The tags of futures that are leaked go back with their hand.
    let [again, leaked] = [kept, holder.get_reserved().unwrap().unwrap()];
    let mut future = first.get_reserved_async();
    assert!(poll(&mut future, &counts[0]).is_pending());
    std::mem::forget(future);
    drop((again, leaked));
    drop(first);
    assert_eq!([(); 2].map(|()| second.get_reserved().unwrap().is_some()), [true; 2]);
    assert_eq!(pool.waiting(), 0);
}
