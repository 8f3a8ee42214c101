//! Futures that wait for a tag, under an executor that counts its polls.
use std::cell::RefCell;
use std::future::Future;
use std::pin::{pin, Pin};
use std::ptr::null;
use std::sync::atomic::{AtomicUsize, Ordering::SeqCst};
use std::sync::{Arc, Mutex};
use std::task::{Context, Poll, RawWaker, RawWakerVTable, Wake, Waker};
use std::thread::{self, Thread};
use std::time::Duration;
use tags::{Error, GetAsyncOwned, Options, OwnedTag, Pool, SharedHand};

#[derive(Default)]
struct Count(AtomicUsize);

impl Wake for Count {
    fn wake(self: Arc<Self>) {
        self.0.fetch_add(1, SeqCst);
    }
}

struct Unpark(Thread);

impl Wake for Unpark {
    fn wake(self: Arc<Self>) {
        self.0.unpark();
    }
}

fn block_on<T>(future: impl Future<Output = T>) -> T {
    let waker = Waker::from(Arc::new(Unpark(thread::current())));
    let mut future = pin!(future);
    loop {
        match future.as_mut().poll(&mut Context::from_waker(&waker)) {
            Poll::Ready(value) => return value,
            Poll::Pending => thread::park(),
        }
    }
}

#[test]
fn a_clear_tells_one_future_and_a_dropped_one_hands_on() {
    let pool = Pool::open(&Options::new(1, 3)).unwrap();
    let hands: Vec<_> = (0..3).map(|_| pool.join().unwrap()).collect();
    let counts = [Arc::new(Count::default()), Arc::new(Count::default())];
    let wakers = counts.clone().map(Waker::from);
    let told = || [counts[0].0.load(SeqCst), counts[1].0.load(SeqCst)];
    let tag = hands[0].get().unwrap();
    let mut first = Box::pin(hands[1].get_async());
    let mut second = Box::pin(hands[2].get_async());
    let poll = |future: &mut Pin<Box<tags::GetAsync<'_>>>, at: usize| {
        let mut context = Context::from_waker(&wakers[at]);
        future.as_mut().poll(&mut context).map(|it| it.map(|tag| tag.number()))
    };
    assert!(poll(&mut first, 0).is_pending() && poll(&mut second, 1).is_pending());
    assert_eq!(hands[1].get_blocking().unwrap_err(), Error::Waiting);
    assert_eq!((hands[0].waiting(), pool.waiting()), (2, 2));
    drop(tag);
    assert_eq!(told(), [1, 0]);
    drop(first);
    assert_eq!(told(), [1, 1]);
    assert_eq!(poll(&mut second, 1), Poll::Ready(Ok(0)));
    assert_eq!(hands[0].waiting(), 0);
}

#[test]
fn futures_and_sleepers_share_two_tags() {
    let pool = Pool::open(&Options::new(2, 8)).unwrap();
    thread::scope(|scope| {
        for number in 0..8 {
            let hand = pool.join().unwrap();
            scope.spawn(move || {
                for _ in 0..500 {
                    let tag = match number % 2 {
                        0 => block_on(hand.get_async()).unwrap(),
                        _ => hand.get_blocking().unwrap(),
                    };
                    thread::yield_now();
                    drop(tag);
                }
            });
        }
    });
    assert_eq!(pool.close().unwrap().back, 4_000);
}

#[test]
fn a_wait_that_can_not_be_is_refused() {
    let options = Options {
        reserved: 2,
        ..Options::new(2, 1)
    };
    let pool = Pool::open(&options).unwrap();
    let hand = pool.join().unwrap();
    assert_eq!(block_on(hand.get_async()).unwrap_err(), Error::NoSuchTag);
    let pool = Pool::open(&Options::new(1, 1)).unwrap();
    let hand = pool.join().unwrap();
    let tag = hand.get().unwrap();
    pool.stop();
    assert_eq!(block_on(hand.get_async()).unwrap_err(), Error::Stopped);
    pool.resume();
    drop(tag);
    assert!(block_on(hand.get_async()).is_ok());
}

#[test]
fn a_hand_whose_future_waits_does_not_sleep() {
    let pool = Pool::open(&Options::new(1, 1)).unwrap();
    let hand = pool.join().unwrap();
    let tag = hand.get().unwrap();
    let count = Arc::new(Count::default());
    let mut future = hand.get_async();
    assert!(poll(&mut future, &count).is_pending());
    assert_eq!(hand.get_blocking().unwrap_err(), Error::Waiting);
    assert_eq!(hand.get_timeout(Duration::MAX).unwrap_err(), Error::Waiting);
    let second = Duration::from_secs(1);
    assert_eq!(hand.get_timeout(second).unwrap_err(), Error::Waiting);
    assert!(hand.get_timeout(Duration::ZERO).unwrap().is_none());
    drop(tag);
    assert!(hand.get_blocking().is_ok());
    assert!(poll(&mut future, &count).is_ready());
    drop(hand.get_timeout(second).unwrap().unwrap());
}

/// Polls once. Whoever is ready gives the number of its tag.
fn poll<T>(future: &mut (impl Future<Output = tags::Result<T>> + Unpin), count: &Arc<Count>) -> Poll<T> {
    let waker = Waker::from(Arc::clone(count));
    let answer = Pin::new(future).poll(&mut Context::from_waker(&waker));
    answer.map(Result::unwrap)
}

fn told<const N: usize>(counts: &[Arc<Count>; N]) -> [usize; N] {
    std::array::from_fn(|at| counts[at].0.load(SeqCst))
}

#[test]
fn futures_of_one_hand_wait_at_once() {
    let pool = Pool::open(&Options::new(1, 1)).unwrap();
    let hand = pool.join().unwrap();
    let counts = [(); 3].map(|()| Arc::new(Count::default()));
    let tag = hand.get().unwrap();
    let [mut first, mut second, mut third] = [(); 3].map(|()| hand.get_async());
    assert!(poll(&mut first, &counts[0]).is_pending());
    assert!(poll(&mut second, &counts[1]).is_pending());
    assert!(poll(&mut third, &counts[2]).is_pending());
    assert_eq!(hand.waiting(), 3);
    drop(tag);
    assert_eq!(told(&counts), [1, 0, 0]);
    let barging = hand.get().unwrap();
    assert!(barging.is_some() && poll(&mut first, &counts[0]).is_pending());
    drop(barging);
    assert_eq!(told(&counts), [2, 0, 0]);
    let Poll::Ready(tag) = poll(&mut first, &counts[0]) else {
        panic!("a tag is free");
    };
    drop((first, tag));
    assert_eq!(told(&counts), [2, 1, 0]);
    drop(third);
    assert!(poll(&mut second, &counts[1]).is_ready());
    assert_eq!(hand.waiting(), 0);
}

/// A pool of two tags, which its second hand holds, and two futures of its first hand that wait, with the counts of
/// their wakes.
type Two = (Pool, SharedHand, [GetAsyncOwned; 2], [Arc<Count>; 2]);

fn two_wait(tags: &mut Vec<OwnedTag>) -> Two {
    let pool = Pool::open(&Options::new(2, 2)).unwrap();
    let (hand, other) = (pool.join().unwrap(), pool.join().unwrap());
    let (hand, other) = (hand.into_shared(), other.into_shared());
    tags.extend([(); 2].map(|()| other.get().unwrap().unwrap()));
    let counts = [(); 2].map(|()| Arc::new(Count::default()));
    let mut futures = [(); 2].map(|()| hand.get_async());
    for (future, count) in futures.iter_mut().zip(&counts) {
        assert!(poll(future, count).is_pending());
    }
    (pool, hand, futures, counts)
}

#[test]
fn a_future_that_got_a_tag_tries_for_the_next_one() {
    let mut tags = Vec::new();
    let (pool, hand, [mut first, mut second], counts) = two_wait(&mut tags);
    tags.clear();
    assert_eq!(told(&counts), [1, 0]);
    assert!(poll(&mut first, &counts[0]).is_ready());
    assert_eq!(told(&counts), [1, 1]);
    assert_eq!(hand.waiting(), 0);
    assert!(poll(&mut second, &counts[1]).is_ready());
    drop((hand, first, second));
    assert_eq!(pool.close().unwrap().back, 4);
}

#[test]
fn a_future_that_was_not_woken_yet_tries_for_the_first_one_too() {
    let mut tags = Vec::new();
    let (_pool, hand, [mut first, mut second], counts) = two_wait(&mut tags);
    drop(tags.pop());
    assert!(poll(&mut second, &counts[1]).is_pending());
    assert!(hand.get().unwrap().is_none());
    assert!(poll(&mut first, &counts[0]).is_ready());
    assert_eq!(told(&counts), [1, 1]);
    assert!(poll(&mut second, &counts[1]).is_ready());
}

#[test]
fn a_dropped_future_gives_back_what_it_was_to_get() {
    let mut tags = Vec::new();
    let (pool, hand, [mut first, second], counts) = two_wait(&mut tags);
    let mut third = hand.get_async();
    assert!(poll(&mut third, &counts[1]).is_pending());
    tags.clear();
    let Poll::Ready(tag) = poll(&mut first, &counts[0]) else {
        panic!("a tag is free");
    };
    assert_eq!(told(&counts), [1, 1]);
    drop(second);
    assert_eq!(told(&counts), [1, 2]);
    let Poll::Ready(other) = poll(&mut third, &counts[1]) else {
        panic!("a tag is free");
    };
    assert_ne!(tag.number(), other.number());
    drop((tag, other, first, third, hand));
    assert_eq!(pool.close().unwrap().back, 5);
}

#[test]
fn a_future_that_was_told_and_found_none_keeps_its_place() {
    let mut tags = Vec::new();
    let (_pool, hand, [mut first, mut second], counts) = two_wait(&mut tags);
    drop(tags.pop());
    let barging = hand.get().unwrap();
    assert!(barging.is_some() && poll(&mut first, &counts[0]).is_pending());
    drop(barging);
    assert_eq!(told(&counts), [2, 0]);
    assert!(poll(&mut first, &counts[0]).is_ready());
    assert!(poll(&mut second, &counts[1]).is_ready());
    assert_eq!(hand.waiting(), 0);
}

#[test]
fn hands_take_turns_however_many_futures_wait_behind_them() {
    let pool = Pool::open(&Options::new(1, 2)).unwrap();
    let hands = [(); 2].map(|()| pool.join().unwrap().into_shared());
    let mut tag = hands[0].get().unwrap();
    let counts = [(); 4].map(|()| Arc::new(Count::default()));
    let mut futures = [0, 0, 0, 1].map(|at: usize| hands[at].get_async());
    for (future, count) in futures.iter_mut().zip(&counts) {
        assert!(poll(future, count).is_pending());
    }
    for first in [0, 3, 1, 2] {
        drop(tag.take());
        assert_eq!(counts[first].0.load(SeqCst), 1);
        let Poll::Ready(got) = poll(&mut futures[first], &counts[first]) else {
            panic!("a tag is free");
        };
        tag = Some(got);
    }
    assert_eq!(told(&counts), [1; 4]);
}

#[test]
fn a_hand_with_leaked_futures_gives_their_tags_back() {
    let pool = Pool::open(&Options::new(2, 2)).unwrap();
    let (hand, other) = (pool.join().unwrap(), pool.join().unwrap());
    let tags = (other.get().unwrap(), other.get().unwrap());
    let counts = [(); 3].map(|()| Arc::new(Count::default()));
    let [mut first, mut second, mut third] = [(); 3].map(|()| hand.get_async());
    assert!(poll(&mut first, &counts[0]).is_pending());
    assert!(poll(&mut second, &counts[1]).is_pending());
    assert!(poll(&mut third, &counts[2]).is_pending());
    std::mem::forget((second, third));
    drop(tags);
    assert!(poll(&mut first, &counts[0]).is_ready());
    drop(first);
    drop(hand);
    assert_eq!(pool.waiting(), 0);
    drop(other);
    assert_eq!(pool.close().unwrap().held, 0);
}

/// A waker that has a tag, which goes back when the waker is dropped.
struct Keeps(#[allow(dead_code)] Mutex<Option<OwnedTag>>);

impl Wake for Keeps {
    fn wake(self: Arc<Self>) {}
}

#[test]
fn a_waker_may_give_a_tag_back() {
    let pool = Pool::open(&Options::new(1, 1)).unwrap();
    let hand = pool.join().unwrap().into_shared();
    let keeper = |hand: &SharedHand| Waker::from(Arc::new(Keeps(Mutex::new(hand.get().unwrap()))));
    let count = Arc::new(Count::default());
    let mut future = hand.get_async();
    let waker = keeper(&hand);
    let answer = Pin::new(&mut future).poll(&mut Context::from_waker(&waker));
    drop(waker);
    assert!(answer.is_pending() && poll(&mut future, &count).is_ready());
    let waker = keeper(&hand);
    let answer = Pin::new(&mut future).poll(&mut Context::from_waker(&waker));
    drop(waker);
    assert!(answer.is_pending());
    drop(future);
    assert!(hand.get().unwrap().is_some());
}

thread_local! {
    static KEPT: RefCell<Option<OwnedTag>> = const { RefCell::new(None) };
}

static GIVES_WHEN_CLONED: RawWakerVTable = RawWakerVTable::new(give_kept, ignore, ignore, ignore);

fn give_kept(_: *const ()) -> RawWaker {
    drop(KEPT.take());
    RawWaker::new(null(), &GIVES_WHEN_CLONED)
}

fn ignore(_: *const ()) {}

thread_local! {
    static USED: RefCell<Option<SharedHand>> = const { RefCell::new(None) };
}

static USES_THE_HAND: RawWakerVTable =
    RawWakerVTable::new(|_| RawWaker::new(null(), &USES_THE_HAND), use_hand, use_hand, use_hand);

fn use_hand(_: *const ()) {
    let hand = USED.with_borrow(Clone::clone);
    assert!(hand.is_none_or(|it| it.holds(0).is_ok()));
}

#[test]
fn a_waker_may_use_the_hand_whenever_it_is_dropped() {
    let pool = Pool::open(&Options::new(1, 2)).unwrap();
    let (hand, other) = (pool.join().unwrap().into_shared(), pool.join().unwrap());
    USED.set(Some(hand.clone()));
    // SAFETY: the functions ignore the pointer.
    let waker = unsafe { Waker::from_raw(RawWaker::new(null(), &USES_THE_HAND)) };
    let mut context = Context::from_waker(&waker);
    for is_dropped in [false, true] {
        let tag = other.get().unwrap();
        let mut futures = [(); 3].map(|()| hand.get_async());
        for future in &mut futures {
            assert!(Pin::new(future).poll(&mut context).is_pending());
        }
        drop(tag);
        assert!(is_dropped || Pin::new(&mut futures[0]).poll(&mut context).is_ready());
        drop(futures);
    }
    let tag = other.get().unwrap();
    let mut future = hand.get_async();
    assert!(Pin::new(&mut future).poll(&mut context).is_pending());
    pool.stop();
    assert!(Pin::new(&mut future).poll(&mut context).is_ready());
    drop(tag);
    USED.set(None);
    assert_eq!(hand.waiting(), 0);
}

#[test]
fn a_tag_that_comes_back_before_the_future_is_listed_is_found() {
    let pool = Pool::open(&Options::new(1, 1)).unwrap();
    let hand = pool.join().unwrap().into_shared();
    KEPT.set(hand.get().unwrap());
    // SAFETY: the functions ignore the pointer.
    let waker = unsafe { Waker::from_raw(RawWaker::new(null(), &GIVES_WHEN_CLONED)) };
    let mut future = hand.get_async();
    let answer = Pin::new(&mut future).poll(&mut Context::from_waker(&waker));
    assert!(answer.is_ready());
    assert_eq!(hand.waiting(), 0);
}

#[test]
fn tasks_hold_tags_across_an_await() {
    let pool = Pool::open(&Options::new(3, 1)).unwrap();
    let hand = pool.join().unwrap().into_shared();
    let threads: Vec<_> = (0..4)
        .map(|_| {
            let hand = hand.clone();
            thread::spawn(move || {
                block_on(async {
                    for _ in 0..500 {
                        let tag = hand.get_async().await.unwrap();
                        Yield(false).await;
                        drop(tag);
                    }
                })
            })
        })
        .collect();
    for thread in threads {
        thread.join().unwrap();
    }
    drop(hand);
    assert_eq!(pool.close().unwrap().back, 2_000);
}

/// Lets other tasks go first.
struct Yield(bool);

impl Future for Yield {
    type Output = ();

    fn poll(mut self: Pin<&mut Self>, context: &mut Context<'_>) -> Poll<()> {
        context.waker().wake_by_ref();
        if std::mem::replace(&mut self.0, true) {
            return Poll::Ready(());
        }
        Poll::Pending
    }
}
