//! Values beside tags: each has one user at a time, and is dropped once.
use std::cell::Cell;
use std::panic::{catch_unwind, AssertUnwindSafe};
use std::sync::atomic::{AtomicUsize, Ordering::SeqCst};
use std::thread;
use tags::{Error, GetAsyncOwned, Hand, Options, OwnedTag, Pool, SharedHand};

/// Counts how many values there are, and how many were dropped.
#[derive(Default)]
struct Tally {
    made: AtomicUsize,
    dropped: AtomicUsize,
}

struct Value<'a>(&'a Tally, u32);

impl Tally {
    fn make(&self, number: u32) -> Value<'_> {
        self.made.fetch_add(1, SeqCst);
        Value(self, number)
    }

    fn counts(&self) -> (usize, usize) {
        (self.made.load(SeqCst), self.dropped.load(SeqCst))
    }
}

impl Drop for Value<'_> {
    fn drop(&mut self) {
        self.0.dropped.fetch_add(1, SeqCst);
    }
}

fn options(total: u32, reserved: u32, hands: u32) -> Options {
    Options {
        reserved,
        ..Options::new(total, hands)
    }
}

/// What may go to other threads, and be used by several, with a value that may only go to one. The opposite is tested
/// by examples of the documentation that do not compile.
#[test]
fn a_value_need_not_be_sync() {
    fn go<T: Send + 'static>() {}
    fn share<T: Sync>() {}
    go::<Hand<Cell<u8>>>();
    go::<OwnedTag<Cell<u8>>>();
    go::<GetAsyncOwned<Cell<u8>>>();
    go::<SharedHand<Cell<u8>>>();
    share::<SharedHand<Cell<u8>>>();
    go::<Pool<Cell<u8>>>();
    share::<Pool<Cell<u8>>>();
}

#[test]
fn each_value_is_dropped_once() {
    let tally = Tally::default();
    let pool = Pool::open_with(&options(10, 2, 2), |it| tally.make(it)).unwrap();
    let hand = pool.join().unwrap();
    for _ in 0..20 {
        let tag = hand.get().unwrap().unwrap();
        assert_eq!(tag.value().1, tag.number());
    }
    assert_eq!(tally.counts(), (10, 0));
    drop(pool);
    let tag = hand.get().unwrap().unwrap();
    assert_eq!((tag.value().1, tally.counts()), (tag.number(), (10, 0)));
    drop(tag);
    drop(hand);
    assert_eq!(tally.counts(), (10, 10));
}

#[test]
fn a_resize_keeps_the_values_of_reserved_tags() {
    let tally = Tally::default();
    let pool = Pool::open_with(&options(10, 2, 1), |it| tally.make(it)).unwrap();
    let hand = pool.join().unwrap();
    assert_eq!(pool.resize_with(6, |it| tally.make(it)), Err(Error::HandsOut));
    assert_eq!(tally.counts(), (14, 4));
    drop(hand);
    assert_eq!(
        pool.resize_with(u32::MAX, |_| unreachable!()),
        Err(Error::TotalTooLarge)
    );
    assert_eq!(pool.resize_with(1, |_| unreachable!()), Err(Error::ReservedTooLarge));
    pool.resize_with(5, |it| tally.make(100 + it)).unwrap();
    assert_eq!(tally.counts(), (17, 12));
    let hand = pool.join_in_place().unwrap();
    let reserved = hand.get_reserved().unwrap().unwrap();
    let ordinary = hand.get().unwrap().unwrap();
    assert_eq!((reserved.value().1, ordinary.value().1), (0, 102));
    drop((reserved, ordinary));
    drop(hand);
    pool.close().unwrap();
    assert_eq!(tally.counts(), (17, 17));
}

#[test]
fn a_pool_whose_values_can_not_be_made_is_gone() {
    let tally = Tally::default();
    let make = |number| match number {
        3 => panic!("no value"),
        _ => tally.make(number),
    };
    let opened = catch_unwind(AssertUnwindSafe(|| Pool::open_with(&options(4, 0, 1), make)));
    assert!(opened.is_err());
    assert_eq!(tally.counts(), (3, 3));
    let refused = Pool::open_with(&options(4, 5, 1), |_| unreachable!());
    let refused: tags::Result<Pool<()>> = refused;
    assert_eq!(refused.unwrap_err(), Error::ReservedTooLarge);
}

#[test]
fn no_value_has_two_users() {
    const ROUNDS: u64 = 2_000;
    let pool = Pool::open_with(&options(3, 0, 8), |_| 0).unwrap();
    thread::scope(|scope| {
        for number in 0..8 {
            let hand = pool.join().unwrap();
            scope.spawn(move || {
                for _ in 0..ROUNDS {
                    let mut tag = hand.get_blocking().unwrap();
                    *tag.value_mut() += 1;
                    if number % 2 == 0 {
                        let posted = tag.post();
                        drop(hand.take(posted).unwrap());
                    }
                }
            });
        }
    });
    let hand = pool.join().unwrap();
    let tags: Vec<_> = (0..3).map(|_| hand.get().unwrap().unwrap()).collect();
    let sum: u64 = tags.iter().map(|it| *it.value()).sum();
    assert_eq!(sum, 8 * ROUNDS);
}

#[test]
fn a_value_may_give_a_tag_of_its_own_pool_back() {
    let pool = Pool::open_with(&options(2, 0, 1), |_| None).unwrap();
    let other = Pool::open(&Options::new(2, 1)).unwrap();
    let spare = other.join().unwrap().into_shared();
    let hand = pool.join().unwrap();
    *hand.get().unwrap().unwrap().value_mut() = spare.get().unwrap();
    drop((hand, spare));
    pool.resize_with(2, |_| None).unwrap();
    assert_eq!(other.close().unwrap().back, 1);
}
