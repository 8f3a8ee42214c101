//! Guards that give their tags back, and refused calls.
use asleep::Asleep;
use std::sync::atomic::{AtomicU64, Ordering::Relaxed};
use std::thread;
use std::time::Duration;
use tags::{Error, Kind, Options, Pool, Shift};

mod asleep;

fn open(total: u32, reserved: u32, hands: u32) -> Pool {
    let options = Options {
        reserved,
        ..Options::new(total, hands)
    };
    Pool::open(&options).unwrap()
}

#[test]
fn each_guard_gives_its_tags_back() {
    let pool = open(16, 2, 1);
    let hand = pool.join().unwrap();
    let mut bits = [0];
    let tag = hand.get().unwrap().unwrap();
    let reserved = hand.get_reserved().unwrap().unwrap();
    let batch = hand.get_batch(2).unwrap().unwrap();
    assert_eq!(hand.busy(&mut bits), Ok(4));
    assert_eq!(bits, [0b11_0101]);
    drop((tag, reserved, batch));
    assert_eq!(hand.busy(&mut bits), Ok(0));
    assert_eq!(hand.show(Kind::Ordinary).depth, 14);
    assert_eq!(hand.waiting(), 0);
    drop(hand);
    let totals = pool.close().unwrap();
    assert_eq!((totals.got, totals.back, totals.held), (4, 4, 0));
}

#[test]
fn refusals_have_names() {
    let wrong = |options| Pool::open(&options).unwrap_err();
    let good = Options::new(4, 1);
    assert_eq!(wrong(Options { reserved: 5, ..good }), Error::ReservedTooLarge);
    assert_eq!(
        wrong(Options {
            shift: Shift::Of(7),
            ..good
        }),
        Error::ShiftTooLarge
    );
    assert_eq!(wrong(Options { hands: 65, ..good }), Error::BadHandCount);
    let pool = Pool::open(&good).unwrap();
    let hand = pool.join().unwrap();
    assert_eq!(hand.get_reserved().unwrap_err(), Error::NoReserved);
    assert_eq!(hand.get_shallow(0).unwrap_err(), Error::TooShallow);
    assert_eq!(hand.get_batch(0).unwrap_err(), Error::BadCount);
    assert_eq!(hand.get_exactly(4).unwrap_err(), Error::NoSuchTag);
    assert_eq!(hand.take(4).unwrap_err(), Error::NoSuchTag);
    assert_eq!(hand.busy(&mut []).unwrap_err(), Error::TooSmall);
    assert_eq!(Error::NoHand.to_string(), "all hands of the pool are out");
    assert_eq!((Error::NoHand.status(), Error::Unexpected(-99).status()), (-14, -99));
}

#[test]
fn a_resize_is_refused_while_the_pool_is_used() {
    let pool = open(16, 2, 2);
    let hand = pool.join_in_place().unwrap();
    let posted = hand.get().unwrap().unwrap().post();
    assert_eq!(pool.resize(32), Err(Error::HandsOut));
    drop(hand);
    assert_eq!(pool.resize(32), Err(Error::InUse));
    let hand = pool.join_in_place().unwrap();
    drop(hand.take(posted).unwrap());
    drop(hand);
    assert_eq!(pool.resize(1), Err(Error::ReservedTooLarge));
    assert_eq!(pool.resize(10_241), Err(Error::TotalTooLarge));
    pool.resize(32).unwrap();
}

#[test]
fn what_was_leaked_is_found_again() {
    let pool = open(130, 0, 1);
    let hand = pool.join_in_place().unwrap();
    let batch = hand.get_batch(3).unwrap().unwrap();
    std::mem::forget(batch);
    let mut tags: Vec<_> = (0..127).map(|_| hand.get().unwrap().unwrap()).collect();
    std::mem::forget(tags.pop());
    drop(tags);
    drop(hand);
    assert_eq!(pool.resize(16), Err(Error::InUse));
    let hand = pool.join().unwrap();
    for number in [0, 1, 2, 129] {
        drop(hand.claim(number).unwrap());
        assert_eq!(hand.claim(number).unwrap_err(), Error::NotHeld);
    }
    drop(hand);
    pool.resize(16).unwrap();
    assert_eq!(pool.close().unwrap().back, 130);
}

#[test]
fn a_number_makes_a_tag_only_where_it_was_let_go() {
    let pool = open(4, 0, 2);
    let (hand, other) = (pool.join_in_place().unwrap(), pool.join().unwrap());
    let tag = hand.get().unwrap().unwrap();
    let number = tag.number();
    let claims = |it: &tags::Hand, number| it.claim(number).map(tags::Tag::into_number);
    for wrong in [number, 1, 4, 64, u32::MAX] {
        assert_eq!(claims(&hand, wrong), Err(Error::NotHeld));
    }
    assert_eq!(tag.into_number(), number);
    assert_eq!(claims(&other, number), Err(Error::NotHeld));
    assert_eq!(claims(&hand, number), Ok(number));
    assert_eq!(hand.claim(number).unwrap().post(), number);
    assert_eq!(claims(&hand, number), Err(Error::NotHeld));
    assert_eq!(other.take(number).unwrap().into_number(), number);
    assert_eq!(claims(&hand, number), Err(Error::NotHeld));
    assert_eq!(claims(&other, number), Ok(number));
}

#[test]
fn a_pool_outlives_its_own_value() {
    let pool = open(4, 0, 2);
    let hand = pool.join_in_place().unwrap();
    drop(pool);
    let number = thread::spawn(move || hand.get_blocking().unwrap().number());
    assert_eq!(number.join().unwrap(), 0);
}

#[test]
fn a_waiter_gets_the_only_tag() {
    let pool = open(1, 0, 4);
    thread::scope(|scope| {
        for _ in 0..4 {
            let hand = pool.join().unwrap();
            scope.spawn(move || {
                for _ in 0..500 {
                    let tag = hand.get_blocking().unwrap();
                    thread::yield_now();
                    drop(tag);
                }
            });
        }
    });
    assert_eq!(pool.close().unwrap().back, 2_000);
}

#[test]
fn a_sleeper_gets_one_of_seven_tags() {
    static ASLEEP: Asleep = Asleep::new();
    let pool = Pool::open_with_sleeper(&Options::new(64, 2), &ASLEEP, |_| ()).unwrap();
    let (hand, waiter) = (pool.join_in_place().unwrap(), pool.join().unwrap());
    let mut tags: Vec<_> = (0..64).map(|_| hand.get().unwrap().unwrap()).collect();
    let sleeper = thread::spawn(move || waiter.get_blocking().map(|tag| tag.number() >= 57));
    ASLEEP.wait_for(1);
    tags.truncate(57);
    assert_eq!(sleeper.join().unwrap(), Ok(true));
}

#[test]
fn those_who_sleep_are_counted() {
    let pool = open(1, 0, 3);
    let hand = pool.join().unwrap();
    let tag = hand.get().unwrap();
    thread::scope(|scope| {
        for _ in 0..2 {
            let waiter = pool.join().unwrap();
            scope.spawn(move || waiter.get_blocking().unwrap().number());
        }
        while pool.waiting() < 2 {
            thread::yield_now();
        }
        assert_eq!(hand.waiting(), 2);
        drop(tag);
    });
    assert_eq!((hand.waiting(), pool.waiting()), (0, 0));
}

#[test]
fn a_wait_ends_in_time() {
    let pool = open(1, 0, 2);
    let (hand, waiter) = (pool.join().unwrap(), pool.join().unwrap());
    let tag = hand.get_timeout(Duration::MAX).unwrap();
    assert!(waiter.get_timeout(Duration::from_millis(2)).unwrap().is_none());
    assert_eq!(pool.waiting(), 0);
    drop(tag);
    assert!(waiter.get_timeout(Duration::ZERO).unwrap().is_some());
}

#[test]
fn a_pool_reports_while_all_hands_are_out() {
    let pool = open(70, 2, 3);
    let (hand, others) = (pool.join().unwrap(), [(); 2].map(|()| pool.join().unwrap()));
    assert_eq!(pool.join().unwrap_err(), Error::NoHand);
    let tag = hand.get_reserved().unwrap().unwrap();
    let mut busy = [0; 2];
    assert_eq!(pool.busy(&mut busy), Ok(1));
    assert_eq!(busy, [1 << tag.number(), 0]);
    assert_eq!(pool.busy(&mut busy[..1]), Err(Error::TooSmall));
    assert_eq!(pool.show(Kind::Reserved), hand.show(Kind::Reserved));
    thread::scope(|threads| {
        let workers = others.map(|hand| threads.spawn(move || (0..20_000).for_each(|_| drop(hand.get().unwrap()))));
        while !workers.iter().all(|it| it.is_finished()) {
            let sizes = pool.show(Kind::Ordinary);
            assert!(sizes.depth == 68 && sizes.busy + sizes.cleared <= 68);
            let found = pool.busy(&mut busy).unwrap();
            assert_eq!(found, busy[0].count_ones() + busy[1].count_ones());
            assert!(busy[0] & 1 == 1 && busy[1] < 1 << 6);
            let tags: Vec<u32> = pool.busy_tags().collect();
            assert!(tags[0] == 0 && tags.is_sorted() && tags[tags.len() - 1] < 70);
        }
    });
    drop(tag);
    assert_eq!(pool.busy(&mut busy), Ok(0));
}

#[test]
fn a_pool_lists_its_busy_tags() {
    let pool = Pool::open_with(&Options::new(10_240, 1), |number| number).unwrap();
    assert_eq!(pool.busy_tags().next(), None);
    let hand = pool.join_in_place().unwrap();
    let mut tags: Vec<_> = (0..10_240).map(|_| hand.get_blocking().unwrap()).collect();
    assert!(pool.busy_tags().eq(0..10_240));
    tags.retain(|tag| [0, 63, 64, 10_239].contains(&tag.number()));
    let listed = pool.busy_tags();
    let posted = tags.pop().unwrap().post();
    drop(tags);
    // It tells what was busy when it was made. Now three of these are back, and the last is posted.
    assert!(pool.busy_tags().eq([posted]));
    drop(hand.take(posted).unwrap());
    drop(hand);
    assert_eq!(pool.close().unwrap().back, 10_240);
    assert!(listed.eq([0, 63, 64, 10_239]));
}

#[test]
fn late_requests_are_among_the_busy_tags() {
    let (pool, begun) = (open(4, 0, 1), [const { AtomicU64::new(0) }; 4]);
    let hand = pool.join_in_place().unwrap();
    let tags = [(); 3].map(|()| hand.get_blocking().unwrap());
    for (tag, since) in [(0, 10_000), (1, 30_000), (3, 10_000)] {
        begun[tag].store(since, Relaxed);
    }
    let now = 40_000_u64;
    let is_late = |tag: &u32| {
        let since = begun[*tag as usize].load(Relaxed);
        since != 0 && now.saturating_sub(since) >= 30_000
    };
    let late: Vec<u32> = pool.busy_tags().filter(is_late).collect();
    assert_eq!(late, [tags[0].number()]);
}

/// By default there are as many whole words as hands, and at least four; or four, as in the kernel.
#[test]
fn words_are_as_many_as_hands() {
    let bits = |options| {
        let pool = Pool::open(&options).unwrap();
        [Kind::Ordinary, Kind::Reserved].map(|kind| pool.show(kind).bits_per_word)
    };
    for (total, hands, wanted, as_kernel) in [
        (1024, 4, 64, 64),
        (1024, 16, 64, 64),
        (1024, 17, 32, 64),
        (1023, 64, 8, 64),
        (128, 5, 16, 32),
        (64, 64, 1, 16),
        (63, 64, 1, 8),
        (4, 64, 1, 1),
        (3, 64, 64, 64),
    ] {
        let options = Options::new(total, hands);
        assert_eq!(bits(options)[0], wanted, "{total} tags, {hands} hands");
        let shift = Shift::AsKernel;
        assert_eq!(bits(Options { shift, ..options })[0], as_kernel, "{total} tags");
    }
    let reserved = Options {
        reserved: 32,
        ..Options::new(1024 + 32, 16)
    };
    assert_eq!(bits(reserved), [64, 2]);
    let pool = Pool::open(&reserved).unwrap();
    pool.resize(32 + 128).unwrap();
    assert_eq!((pool.batch_limit(), pool.show(Kind::Ordinary).words), (64, 2));
}
