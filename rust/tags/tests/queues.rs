//! Queues of submitted tags: who gets which tag, when threads and futures that wait are woken, what is refused, and threads that
//! submit beside others that take tags.
use asleep::Asleep;
use std::future::Future;
use std::pin::Pin;
use std::sync::atomic::{AtomicUsize, Ordering::SeqCst};
use std::sync::{Arc, Mutex};
use std::task::{Context, Poll, Wake};
use std::thread;
use std::time::Duration;
use tags::{Error, Hand, Numbers, Options, Pool, Result, Tag, Totals};

mod asleep;

const SHORT: Duration = Duration::from_millis(5);
const LONG: Duration = Duration::from_secs(3600);

fn options(total: u32, hands: u32) -> Options {
    Options {
        queues: 1,
        ..Options::new(total, hands)
    }
}

fn submit(hand: &Hand, queue: u32, value: u64) -> u32 {
    let tag = hand.get_blocking().unwrap();
    tag.write(value);
    tag.submit(queue).unwrap()
}

/// Submits tags with the values from 0 on.
fn submit_some(hand: &Hand, count: u64) {
    for value in 0..count {
        submit(hand, 0, value);
    }
}

/// The value of the next tag, which goes back.
fn next(hand: &Hand, queue: u32) -> Option<u64> {
    hand.next(queue).unwrap().map(|tag| tag.read())
}

#[test]
fn tags_come_in_the_order_in_which_they_were_submitted() {
    let pool = Pool::open(&options(5, 3)).unwrap();
    let [first, second, worker] = [(); 3].map(|()| pool.join().unwrap());
    for round in 0..40 {
        for (value, hand) in [&first, &second, &second, &first].into_iter().enumerate() {
            submit(hand, 0, round + value as u64);
        }
        assert_eq!(pool.queued(0), Ok(4));
        for value in 0..4 {
            assert_eq!(next(&worker, 0), Some(round + value));
        }
        assert!(next(&worker, 0).is_none() && pool.queued(0) == Ok(0));
    }
    drop([first, second, worker]);
    let totals = pool.close().unwrap();
    assert_eq!((totals.got, totals.back, totals.posted), (160, 160, 0));
}

#[test]
fn a_tag_comes_with_its_value() {
    let pool = Pool::open_with(&options(2, 2), |_| String::new()).unwrap();
    let (submitter, worker) = (pool.join().unwrap(), pool.join().unwrap());
    let mut tag = submitter.get().unwrap().unwrap();
    tag.value_mut().push_str("a request");
    let number = tag.submit(0).unwrap();
    assert_eq!(submitter.holds(number), Ok(false));
    let tag = worker.next(0).unwrap().unwrap();
    assert_eq!((tag.number(), tag.value().as_str()), (number, "a request"));
    // Who takes it may submit it again.
    tag.submit(0).unwrap();
    assert_eq!(submitter.next(0).unwrap().map(|tag| tag.number()), Some(number));
}

#[test]
fn reserved_tags_and_tags_of_a_batch_can_be_submitted() {
    let pool = Pool::open(&Options {
        reserved: 1,
        ..options(65, 1)
    });
    let pool = pool.unwrap();
    let hand = pool.join().unwrap();
    let batch = hand.get_batch(3).unwrap().unwrap();
    let mut numbers: Vec<u32> = batch.into_tags().map(|tag| tag.submit(0).unwrap()).collect();
    numbers.push(hand.get_reserved().unwrap().unwrap().submit(0).unwrap());
    assert_eq!(numbers, [1, 2, 3, 0]);
    let taken = std::iter::from_fn(|| hand.next(0).unwrap().map(Tag::into_number));
    assert!(taken.eq(numbers));
}

#[test]
fn a_full_ring_goes_round() {
    for total in [1, 2, 3, 64, 100] {
        let pool = Pool::open(&options(total, 1)).unwrap();
        let hand = pool.join().unwrap();
        for round in 0..5 {
            for value in 0..u64::from(total) {
                submit(&hand, 0, round * 1000 + value);
            }
            assert!(hand.get().unwrap().is_none() && pool.queued(0) == Ok(total));
            for value in 0..u64::from(total) {
                assert_eq!(next(&hand, 0), Some(round * 1000 + value));
            }
        }
    }
    let pool = Pool::open(&options(0, 1)).unwrap();
    let hand = pool.join().unwrap();
    assert!(hand.next(0).unwrap().is_none());
    assert_eq!(hand.next_blocking(0).unwrap_err(), Error::NoSuchTag);
}

#[test]
fn queues_are_apart() {
    let pool = Pool::open(&Options {
        queues: 64,
        ..options(8, 2)
    });
    let pool = pool.unwrap();
    let (hand, other) = (pool.join().unwrap(), pool.join().unwrap());
    for queue in [0, 63, 5, 63] {
        submit(&hand, queue, u64::from(queue));
    }
    assert_eq!([0, 1, 5, 63].map(|queue| pool.queued(queue)), [1, 0, 1, 2].map(Ok));
    assert_eq!([1, 63, 0].map(|queue| next(&other, queue)), [None, Some(63), Some(0)]);
    assert_eq!([5, 63, 63].map(|queue| next(&other, queue)), [Some(5), Some(63), None]);
}

#[test]
fn what_can_not_be_done_is_refused_and_changes_nothing() {
    let pool = Pool::open(&options(2, 2)).unwrap();
    let (hand, other) = (pool.join().unwrap(), pool.join().unwrap());
    let refused = hand.get().unwrap().unwrap().submit(1).unwrap_err();
    assert_eq!(refused.error, Error::NoSuchQueue);
    assert_eq!(hand.holds(refused.tag.number()), Ok(true));
    assert_eq!(refused.to_string(), "the pool has no such queue");
    // Dropped or turned into its error it gives the tag back.
    assert_eq!(Error::from(refused), Error::NoSuchQueue);
    assert_eq!(hand.busy(&mut [0]), Ok(0));
    for refused in [hand.next(1), hand.next_timeout(1, SHORT)] {
        assert_eq!(refused.err(), Some(Error::NoSuchQueue));
    }
    assert_eq!(hand.next_blocking(1).err(), Some(Error::NoSuchQueue));
    assert_eq!(pool.queued(1), Err(Error::NoSuchQueue));
    assert_eq!(other.next(0).map(drop), Ok(()));
    let none = Pool::open(&Options::new(2, 1)).unwrap();
    assert_eq!(none.join().unwrap().next(0).err(), Some(Error::NoSuchQueue));
    assert_eq!(none.queued(0), Err(Error::NoSuchQueue));
    let many = Options {
        queues: 65,
        ..Options::new(2, 1)
    };
    assert_eq!(Pool::open(&many).err(), Some(Error::BadQueueCount));
    assert_eq!(
        [Error::BadQueueCount, Error::NoSuchQueue].map(Error::status),
        [-38, -39]
    );
}

#[test]
fn a_queued_tag_is_posted_for_its_queue_alone() -> Result<()> {
    let pool = Pool::open(&Options {
        queues: 2,
        ..options(3, 3)
    })?;
    let (hand, other, shared) = (pool.join()?, pool.join()?, pool.join()?.into_shared());
    let numbers = [0, 1, 2].map(|queue| submit(&hand, queue % 2, queue.into()));
    for number in numbers {
        assert_eq!(hand.take(number).err(), Some(Error::NotPosted));
        assert_eq!(other.take(number).err(), Some(Error::NotPosted));
        assert_eq!(shared.take(number).err(), Some(Error::NotPosted));
    }
    assert_eq!([pool.queued(0), pool.queued(1)], [Ok(2), Ok(1)]);
    assert_eq!(next(&other, 1), Some(1));
    assert_eq!(
        [next(&other, 0), next(&other, 0), next(&other, 0)],
        [Some(0), Some(2), None]
    );
    assert_eq!(other.take(3).err(), Some(Error::NoSuchTag));
    assert_eq!(pool.busy_tags().count(), 0);
    Ok(())
}

#[test]
fn a_tag_that_has_left_its_queue_is_posted_for_all() -> Result<()> {
    let pool = Pool::open(&options(2, 2))?;
    let (hand, other) = (pool.join()?, pool.join()?);
    for value in 0..20 {
        let number = submit(&hand, 0, value);
        assert_eq!(other.next(0)?.map(Tag::post), Some(number));
        assert_eq!((pool.queued(0), next(&other, 0)), (Ok(0), None));
        let tag = hand.take(number)?;
        assert_eq!(tag.read(), value);
        // Whoever took it may submit it again.
        tag.submit(0)?;
        assert_eq!(hand.take(number).err(), Some(Error::NotPosted));
        assert_eq!(next(&other, 0), Some(value));
    }
    Ok(())
}

#[test]
fn a_batch_with_a_queued_tag_is_not_taken() -> Result<()> {
    let pool = Pool::open(&options(16, 2))?;
    let (hand, other) = (pool.join()?, pool.join()?);
    let mut batch = hand.get_batch(3)?.unwrap();
    let numbers = Numbers::new(0, 0b111);
    let queued = batch.remove(1).unwrap();
    let _ = batch.post();
    queued.submit(0)?;
    for taker in [&hand, &other] {
        assert_eq!(taker.take_batch(numbers).err(), Some(Error::NotPosted));
    }
    let _ = other.next(0)?.unwrap().post();
    assert!(hand.take_batch(numbers)?.numbers().eq(0..3));
    Ok(())
}

#[test]
fn a_submit_wakes_one_that_sleeps() {
    static ASLEEP: Asleep = Asleep::new();
    let pool = Pool::open_with_sleeper(&options(4, 4), &ASLEEP, |_| ()).unwrap();
    let submitter = pool.join().unwrap();
    thread::scope(|threads| {
        let workers = [(); 3].map(|()| {
            let hand = pool.join().unwrap();
            threads.spawn(move || {
                let tag = hand.next_blocking(0).unwrap();
                (tag.read(), tag.into_number())
            })
        });
        ASLEEP.wait_for(3);
        submit_some(&submitter, 3);
        let mut values = workers.map(|it| it.join().unwrap().0);
        values.sort_unstable();
        assert_eq!(values, [0, 1, 2]);
    });
    assert_eq!((pool.waiting(), pool.queued(0)), (0, Ok(0)));
}

#[test]
fn those_that_wait_in_queues_are_counted() -> Result<()> {
    let pool = Pool::open(&Options {
        queues: 2,
        ..options(2, 4)
    })?;
    let [hand, other, submitter] = [(); 3].map(|()| pool.join().unwrap());
    let shared = pool.join()?.into_shared();
    let all = [submitter.get()?.unwrap(), submitter.get()?.unwrap()];
    let (mut one, mut tag) = (other.next_async(1), other.get_async());
    assert!(poll(&mut one, &Arc::default()).is_pending() && poll(&mut tag, &Arc::default()).is_pending());
    assert_eq!((pool.waiting(), other.waiting(), shared.waiting()), (2, 2, 2));
    thread::scope(|threads| {
        threads.spawn(move || assert_eq!(hand.next_blocking(0).err(), Some(Error::Stopped)));
        while pool.waiting() < 3 {
            thread::yield_now();
        }
        drop(tag);
        assert_eq!(pool.waiting(), 2);
        pool.stop();
    });
    assert_eq!(pool.waiting(), 0);
    drop(all);
    Ok(())
}

#[test]
fn a_sleep_ends_in_time_and_with_a_tag() {
    static ASLEEP: Asleep = Asleep::new();
    let pool = Pool::open_with_sleeper(&options(4, 2), &ASLEEP, |_| ()).unwrap();
    let (hand, other) = (pool.join().unwrap(), pool.join().unwrap());
    for time in [Duration::ZERO, SHORT] {
        assert!(hand.next_timeout(0, time).unwrap().is_none());
    }
    thread::scope(|threads| {
        let waiter = threads.spawn(move || next_in_time(&hand));
        ASLEEP.wait_for(1);
        submit(&other, 0, 2);
        assert_eq!(waiter.join().unwrap(), Some(2));
    });
}

fn next_in_time(hand: &Hand) -> Option<u64> {
    hand.next_timeout(0, LONG).unwrap().map(|tag| tag.read())
}

#[test]
fn a_stop_ends_each_sleep_and_leaves_what_is_queued() {
    static ASLEEP: Asleep = Asleep::new();
    let pool = Pool::open_with_sleeper(&options(4, 5), &ASLEEP, |_| ()).unwrap();
    let submitter = pool.join().unwrap();
    thread::scope(|threads| {
        let [first, second, third] = [(); 3].map(|()| pool.join().unwrap());
        let waits = [
            threads.spawn(move || first.next_blocking(0).map(drop)),
            threads.spawn(move || second.next_timeout(0, LONG).map(drop)),
            threads.spawn(move || block_on(third.next_async(0)).map(drop)),
        ];
        ASLEEP.wait_for(2);
        while pool.waiting() < 3 {
            thread::yield_now();
        }
        pool.stop();
        for wait in waits {
            assert_eq!(wait.join().unwrap(), Err(Error::Stopped));
        }
    });
    let hand = pool.join().unwrap();
    for tag in submitter.get_many(3).unwrap().unwrap() {
        tag.submit(0).unwrap();
    }
    assert!(hand.next_blocking(0).is_ok() && hand.next_timeout(0, LONG).unwrap().is_some());
    assert!(block_on(hand.next_async(0)).is_ok());
    assert_eq!(hand.next_blocking(0).err(), Some(Error::Stopped));
    assert_eq!(hand.next_timeout(0, LONG).err(), Some(Error::Stopped));
    assert_eq!(block_on(hand.next_async(0)).err(), Some(Error::Stopped));
    assert!(hand.next(0).unwrap().is_none());
    pool.resume();
    assert!(hand.next_timeout(0, SHORT).unwrap().is_none());
    submit(&submitter, 0, 9);
    assert_eq!(hand.next_blocking(0).unwrap().read(), 9);
}

#[test]
fn a_stop_lasts_over_a_resize() {
    let pool = Pool::open(&options(4, 1)).unwrap();
    pool.stop();
    pool.resize(6).unwrap();
    assert_eq!(pool.join().unwrap().next_blocking(0).err(), Some(Error::Stopped));
    pool.resume();
    assert!(pool.join().unwrap().next_timeout(0, SHORT).unwrap().is_none());
}

#[test]
fn queues_are_made_anew_by_a_resize() -> Result<()> {
    let pool = Pool::open(&Options {
        queues: 2,
        ..options(2, 2)
    })?;
    let hand = pool.join()?;
    let number = submit(&hand, 1, 1);
    assert!(!pool.drain_timeout(SHORT));
    drop(hand);
    assert_eq!(pool.resize(300), Err(Error::InUse));
    assert_eq!(pool.queued(1), Ok(1));
    assert_eq!(pool.join()?.next(1)?.map(|tag| tag.number()), Some(number));
    pool.drain();
    pool.resize(300)?;
    let hand = pool.join()?;
    assert_eq!([pool.queued(0), pool.queued(1)], [Ok(0); 2]);
    for value in 0..300 {
        submit(&hand, 1, value);
    }
    assert!((0..300).all(|value| next(&hand, 1) == Some(value)) && next(&hand, 0).is_none());
    drop(hand);
    pool.resize(1)?;
    assert_eq!(submit(&pool.join()?, 0, 1), 0);
    Ok(())
}

#[test]
fn a_pool_is_closed_with_queued_tags() {
    let pool = Pool::open(&options(4, 1)).unwrap();
    let hand = pool.join().unwrap();
    submit_some(&hand, 3);
    assert_eq!(next(&hand, 0), Some(0));
    drop(hand);
    let totals = Totals {
        got: 3,
        back: 1,
        held: 0,
        posted: 2,
    };
    assert_eq!(pool.close().unwrap(), totals);
}

#[test]
fn tags_stay_queued_while_all_hands_are_back() {
    let pool = Pool::open(&options(4, 1)).unwrap();
    let number = submit(&pool.join().unwrap(), 0, 7);
    assert_eq!(pool.queued(0), Ok(1));
    let hand = pool.join().unwrap();
    let tag = hand.next(0).unwrap().unwrap();
    assert_eq!((tag.number(), tag.read()), (number, 7));
}

#[test]
fn a_hand_keeps_no_tags_while_it_waits_in_a_queue() {
    for cache in [1, 2] {
        let pool = Pool::open(&Options {
            cache,
            ..options(cache, 2)
        });
        let pool = pool.unwrap();
        let (worker, submitter) = (pool.join().unwrap(), pool.join().unwrap());
        drop(worker.get_many(cache).unwrap().unwrap());
        assert!(submitter.get().unwrap().is_none() && next(&worker, 0).is_none());
        // A try gives none of them back.
        assert!(submitter.get().unwrap().is_none());
        assert!(worker.next_timeout(0, SHORT).unwrap().is_none());
        drop(submitter.get_many(cache).unwrap().unwrap());
        submitter.flush();
        drop(worker.get().unwrap().unwrap());
        let mut future = worker.next_async(0);
        assert!(poll(&mut future, &Arc::default()).is_pending());
        assert!(submitter.get().unwrap().is_some());
    }
}

#[test]
fn a_submit_gives_back_what_is_kept_beside_it() {
    let pool = Pool::open(&Options {
        cache: 2,
        keep_while_holding: true,
        ..options(2, 2)
    });
    let pool = pool.unwrap();
    let (hand, other) = (pool.join().unwrap(), pool.join().unwrap());
    let (kept, submitted) = (hand.get().unwrap(), hand.get().unwrap().unwrap());
    drop(kept);
    assert!(other.get().unwrap().is_none());
    let mut future = other.get_async();
    let count = Arc::default();
    assert!(poll(&mut future, &count).is_pending());
    submitted.submit(0).unwrap();
    assert_eq!(count.0.load(SeqCst), 1);
    assert!(poll(&mut future, &count).is_ready());
}

#[test]
fn a_note_goes_with_its_tag_through_a_queue() -> Result<()> {
    let pool = Pool::open(&Options {
        notes: true,
        ..options(2, 1)
    })?;
    let hand = pool.join()?;
    let noted = || {
        pool.noted_tags()
            .unwrap()
            .map(|(_, note)| note.map(|it| it.value))
            .collect::<Vec<_>>()
    };
    let tag = hand.get_blocking()?;
    tag.note(70)?;
    tag.submit(0)?;
    assert_eq!(noted(), [Some(70)]);
    let tag = hand.next(0)?.unwrap();
    assert_eq!(noted(), [Some(70)]);
    drop(tag);
    assert_eq!(noted(), []);
    Ok(())
}

/// Counts its calls.
#[derive(Default)]
struct Count(AtomicUsize);

impl Wake for Count {
    fn wake(self: Arc<Self>) {
        self.0.fetch_add(1, SeqCst);
    }
}

fn poll<F: Future + Unpin>(future: &mut F, count: &Arc<Count>) -> Poll<F::Output> {
    Pin::new(future).poll(&mut Context::from_waker(&Arc::clone(count).into()))
}

struct Unpark(thread::Thread);

impl Wake for Unpark {
    fn wake(self: Arc<Self>) {
        self.0.unpark();
    }
}

fn block_on<F: Future + Unpin>(mut future: F) -> F::Output {
    let waker = Arc::new(Unpark(thread::current())).into();
    loop {
        match Pin::new(&mut future).poll(&mut Context::from_waker(&waker)) {
            Poll::Ready(answer) => return answer,
            Poll::Pending => thread::park(),
        }
    }
}

#[test]
fn futures_of_one_hand_wait_for_tags_and_in_queues() -> Result<()> {
    let pool = Pool::open(&Options {
        queues: 2,
        ..options(2, 2)
    })?;
    let (hand, other) = (pool.join()?, pool.join()?);
    let all = [other.get()?.unwrap(), other.get()?.unwrap()];
    let counts: [Arc<Count>; 3] = Default::default();
    let (mut tag, mut zero, mut one) = (hand.get_async(), hand.next_async(0), hand.next_async(1));
    assert!(poll(&mut tag, &counts[0]).is_pending() && poll(&mut zero, &counts[1]).is_pending());
    assert!(poll(&mut one, &counts[2]).is_pending());
    // A thread that sleeps could not poll them.
    assert_eq!(hand.next_blocking(0).err(), Some(Error::Waiting));
    assert_eq!(hand.next_timeout(1, SHORT).err(), Some(Error::Waiting));
    assert_eq!(hand.get_blocking().err(), Some(Error::Waiting));
    let [first, second] = all;
    let number = first.submit(1)?;
    assert_eq!(counts.each_ref().map(|it| it.0.load(SeqCst)), [0, 0, 1]);
    let Poll::Ready(Ok(next)) = poll(&mut one, &counts[2]) else {
        panic!("a tag is queued")
    };
    assert_eq!(next.number(), number);
    drop(second);
    assert_eq!(counts.each_ref().map(|it| it.0.load(SeqCst)), [1, 0, 1]);
    assert!(poll(&mut tag, &counts[0]).is_ready());
    assert_eq!(hand.next_timeout(1, SHORT).err(), Some(Error::Waiting));
    drop(zero);
    assert!(hand.next_timeout(1, SHORT)?.is_none());
    drop(next);
    Ok(())
}

#[test]
fn a_future_that_is_dropped_or_leaked_passes_its_turn_on() -> Result<()> {
    let pool = Pool::open(&options(2, 4))?;
    let [first, second, third, submitter] = [(); 4].map(|()| pool.join().unwrap());
    let counts: [Arc<Count>; 3] = Default::default();
    let called = || counts.each_ref().map(|it| it.0.load(SeqCst));
    let mut dropped = first.next_async(0);
    let (mut leaked, mut last) = (second.next_async(0), third.next_async(0));
    assert!(poll(&mut dropped, &counts[0]).is_pending() && poll(&mut leaked, &counts[1]).is_pending());
    assert!(poll(&mut last, &counts[2]).is_pending());
    submit(&submitter, 0, 7);
    assert_eq!(called(), [1, 0, 0]);
    drop(dropped);
    assert_eq!(called(), [1, 1, 0]);
    std::mem::forget(leaked);
    drop(second);
    assert_eq!(called(), [1, 1, 1]);
    assert!(matches!(poll(&mut last, &counts[2]), Poll::Ready(Ok(tag)) if tag.read() == 7));
    // Nothing is left behind.
    submit(&submitter, 0, 8);
    assert_eq!((next(&first, 0), pool.queued(0)), (Some(8), Ok(0)));
    Ok(())
}

/// Submits as many requests as there are, each of which has the number of its submitter, and its own.
fn submit_all(hand: &Hand, me: u64, requests: u64, queues: u32) {
    for request in 0..requests {
        let tag = hand.get_blocking().unwrap();
        tag.write(me << 32 | request);
        tag.submit(request as u32 % queues).unwrap();
    }
}

/// Takes tags until the pool is stopped, in one way after another. Returns their requests.
fn take_all(hand: &Hand, queue: u32) -> Vec<u64> {
    let mut taken = Vec::new();
    for round in 0.. {
        let tag = match round % 4 {
            0 => hand.next(queue),
            1 => hand.next_timeout(queue, Duration::from_micros(50)),
            2 => block_on(hand.next_async(queue)).map(Some),
            _ => hand.next_blocking(queue).map(Some),
        };
        match tag {
            Ok(tag) => taken.extend(tag.map(|tag| tag.read())),
            Err(Error::Stopped) => return taken,
            Err(error) => panic!("{error}"),
        }
    }
    unreachable!("a thread takes tags until the pool is stopped")
}

/// Of what one thread took, the requests of each submitter are in order.
fn are_in_order(taken: &[u64], submitters: u64) -> bool {
    let of = |me| taken.iter().filter(move |it| **it >> 32 == me);
    (0..submitters).all(|me| of(me).is_sorted())
}

fn carry_out(total: u32, cache: u32, queues: u32, submitters: u64, workers: u32) {
    const REQUESTS: u64 = 4000;
    let pool = Pool::open(&Options {
        queues,
        cache,
        ..Options::new(total, submitters as u32 + workers)
    });
    let pool = pool.unwrap();
    let taken = Mutex::new(Vec::new());
    thread::scope(|threads| {
        let own = (0..workers)
            .map(|me| (me % queues, pool.join().unwrap()))
            .collect::<Vec<_>>();
        for (queue, hand) in own {
            let taken = &taken;
            threads.spawn(move || {
                let own = take_all(&hand, queue);
                assert!(are_in_order(&own, submitters));
                taken.lock().unwrap().extend(own);
            });
        }
        thread::scope(|threads| {
            for me in 0..submitters {
                let hand = pool.join().unwrap();
                threads.spawn(move || submit_all(&hand, me, REQUESTS, queues));
            }
        });
        // All was submitted before the stop, so all is taken.
        pool.stop();
    });
    let mut taken = taken.into_inner().unwrap();
    taken.sort_unstable();
    let wanted = (0..submitters).flat_map(|me| (0..REQUESTS).map(move |request| me << 32 | request));
    assert!(taken.into_iter().eq(wanted));
    assert!((0..queues).all(|queue| pool.queued(queue) == Ok(0)));
    let totals = pool.close().unwrap();
    assert_eq!((totals.back, totals.posted), (totals.got, 0));
}

#[test]
fn each_submitted_tag_is_taken_once() {
    for (total, submitters, workers) in [(1, 2, 2), (4, 1, 3), (4, 3, 1), (16, 3, 3), (300, 4, 2)] {
        carry_out(total, 0, 1, submitters, workers);
        carry_out(total.max(3), 2, 2, submitters, workers.max(2));
    }
}

/// Takes some of these tags until the work is over, with no other answer than that none is posted.
fn try_past(hand: &Hand, is_over: &AtomicUsize) {
    while is_over.load(SeqCst) == 0 {
        for number in 0..4 {
            assert_eq!(hand.take(number).err(), Some(Error::NotPosted));
        }
        assert_eq!(hand.take_batch(Numbers::new(0, 0b1111)).err(), Some(Error::NotPosted));
    }
}

#[test]
fn no_tag_is_taken_past_its_queue_amid_the_work() {
    const ROUNDS: usize = 20_000;
    let pool = Pool::open(&options(4, 6)).unwrap();
    let (is_over, taken) = (AtomicUsize::new(0), AtomicUsize::new(0));
    thread::scope(|threads| {
        for _ in 0..2 {
            let (hand, is_over) = (pool.join().unwrap(), &is_over);
            threads.spawn(move || try_past(&hand, is_over));
        }
        for _ in 0..2 {
            let (hand, taken) = (pool.join().unwrap(), &taken);
            threads.spawn(move || {
                while let Ok(tag) = hand.next_blocking(0) {
                    taken.fetch_add(1, SeqCst);
                    drop(tag);
                }
            });
        }
        thread::scope(|threads| {
            for _ in 0..2 {
                let hand = pool.join().unwrap();
                threads.spawn(move || submit_some(&hand, ROUNDS as u64));
            }
        });
        pool.stop();
        is_over.store(1, SeqCst);
    });
    assert_eq!((taken.into_inner(), pool.queued(0)), (2 * ROUNDS, Ok(0)));
    let totals = pool.close().unwrap();
    assert_eq!(
        (totals.got, totals.back, totals.held, totals.posted),
        (2 * ROUNDS as u64, 2 * ROUNDS as u64, 0, 0)
    );
}
