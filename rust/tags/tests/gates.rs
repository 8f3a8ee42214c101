//! Waits for a hand, and for all tags or those of a list to be back.
use asleep::Asleep;
use std::sync::atomic::{AtomicBool, AtomicU32, AtomicU64, Ordering::SeqCst};
use std::thread;
use std::time::Duration;
use tags::{Error, Options, Pool};

mod asleep;

/// Longer than any test takes.
const LATE: Duration = Duration::from_secs(600);

#[test]
fn more_threads_than_hands() {
    let pool = Pool::open(&Options::new(8, 2)).unwrap();
    let inside = AtomicU32::new(0);
    thread::scope(|threads| {
        for number in 0..6 {
            let (pool, inside) = (&pool, &inside);
            threads.spawn(move || {
                for _ in 0..200 {
                    let hand = if number % 2 == 0 {
                        pool.join_blocking().unwrap()
                    } else {
                        pool.join_timeout(LATE).unwrap().unwrap()
                    };
                    assert!(inside.fetch_add(1, SeqCst) < 2);
                    drop(hand.get_blocking().unwrap());
                    inside.fetch_sub(1, SeqCst);
                }
            });
        }
    });
    assert_eq!(pool.close().unwrap().back, 1200);
}

/// The values are those of the tags, also beside a resize.
#[test]
fn a_resize_beside_joins() {
    let pool = Pool::open_with(&Options::new(4, 1), |number| number).unwrap();
    thread::scope(|threads| {
        threads.spawn(|| {
            for round in 0..2000 {
                let resized = pool.resize_with(4 + round % 3, |number| number);
                assert!(matches!(resized, Ok(()) | Err(Error::HandsOut)));
            }
        });
        for _ in 0..2000 {
            let hand = pool.join_blocking().unwrap();
            let tag = hand.get_blocking().unwrap();
            assert_eq!(*tag.value(), tag.number());
        }
    });
}

/// Whoever gets and drops all hands finds all of them back, whichever thread dropped them before.
#[test]
fn all_hands_are_back_once_others_can_have_them() {
    for round in 0..2000 {
        let pool = Pool::open(&Options::new(64, 2)).unwrap();
        let hand = pool.join().unwrap();
        let shared = pool.join().unwrap().into_shared();
        thread::scope(|threads| {
            threads.spawn(move || drop(hand.get().unwrap()));
            threads.spawn(move || drop(shared.get().unwrap()));
            drop([(); 2].map(|()| pool.join_blocking().unwrap()));
            match round % 2 {
                0 => assert_eq!(pool.resize(128), Ok(())),
                _ => assert!(pool.close().is_ok()),
            }
        });
    }
}

fn drain_beside_threads(cache: u32) {
    let options = Options {
        cache,
        reserved: 1,
        ..Options::new(8, 3)
    };
    let pool = Pool::open(&options).unwrap();
    for _ in 0..100 {
        let hands: Vec<_> = (0..3).map(|_| pool.join().unwrap()).collect();
        let held = AtomicU32::new(0);
        thread::scope(|threads| {
            for hand in hands {
                let tag = hand.get().unwrap().unwrap().into_number();
                held.fetch_add(1, SeqCst);
                let held = &held;
                threads.spawn(move || {
                    thread::yield_now();
                    held.fetch_sub(1, SeqCst);
                    drop(hand.claim(tag).unwrap());
                    // What it keeps goes back as it is dropped.
                    drop(hand);
                });
            }
            assert!(pool.drain_timeout(LATE));
            assert_eq!(held.load(SeqCst), 0);
        });
    }
}

#[test]
fn drains() {
    drain_beside_threads(0);
    drain_beside_threads(4);
}

#[test]
fn a_stop_ends_waits_for_a_hand_and_no_drain() {
    static ASLEEP: Asleep = Asleep::new();
    let pool = Pool::open_with_sleeper(&Options::new(2, 1), &ASLEEP, |_| ()).unwrap();
    let hand = pool.join().unwrap();
    let number = hand.get().unwrap().unwrap().into_number();
    thread::scope(|threads| {
        let join = threads.spawn(|| pool.join_blocking().map(|_| ()));
        let drain = threads.spawn(|| pool.drain());
        ASLEEP.wait_for(2);
        pool.stop();
        assert_eq!(join.join().unwrap(), Err(Error::Stopped));
        assert!(!drain.is_finished());
        drop(hand.claim(number).unwrap());
        drain.join().unwrap();
    });
    pool.resume();
    assert!(hand.get_blocking().is_ok());
}

#[test]
fn lists_and_their_limits() {
    let options = Options {
        reserved: 1,
        ..Options::new(130, 1)
    };
    let pool = Pool::open(&options).unwrap();
    let hand = pool.join().unwrap();
    let (reserved, last) = (hand.get_reserved().unwrap(), hand.get_exactly(129).unwrap());
    let posted = hand.get_exactly(70).unwrap().unwrap().post();
    for number in [0, 129, 70] {
        assert_eq!(pool.drain_list_timeout(&[1, number, number], Duration::ZERO), Ok(false));
    }
    assert_eq!(
        pool.drain_list_timeout(&[129, 70, 0], Duration::from_millis(5)),
        Ok(false)
    );
    assert_eq!(pool.drain_list(&[1, 128, 2, 1]), Ok(()));
    assert_eq!(pool.drain_list(&[]), Ok(()));
    assert_eq!(pool.drain_list(&[1, 130]), Err(Error::NoSuchTag));
    assert_eq!(pool.drain_list_timeout(&[u32::MAX], LATE), Err(Error::NoSuchTag));
    drop((reserved, last, hand.take(posted).unwrap()));
    assert_eq!(pool.drain_list_timeout(&[129, 70, 0], Duration::ZERO), Ok(true));
    assert_eq!(pool.waiting(), 0);
}

/// A tag that was back is not waited for again, though it never was at the same time as the other.
#[test]
fn one_after_the_other() {
    static ASLEEP: Asleep = Asleep::new();
    let pool = Pool::open_with_sleeper(&Options::new(8, 1), &ASLEEP, |_| ()).unwrap();
    let hand = pool.join().unwrap();
    let get = |number| hand.get_exactly(number).unwrap().unwrap();
    let (mut first, mut second, third) = (get(2), get(3), get(4));
    thread::scope(|threads| {
        let last = threads.spawn(|| pool.drain_list(&[4]));
        let both = threads.spawn(|| pool.drain_list_timeout(&[2, 3, 2], LATE));
        ASLEEP.wait_for(2);
        while !both.is_finished() {
            drop(first);
            first = get(2);
            thread::yield_now();
            drop(second);
            second = get(3);
            thread::yield_now();
        }
        assert_eq!(both.join().unwrap(), Ok(true));
        // Neither another tag nor a stop ends the wait.
        drop((first, second));
        pool.stop();
        pool.resume();
        for _ in 0..1000 {
            drop(get(2));
            thread::yield_now();
        }
        assert!(!last.is_finished());
        drop(third);
        assert_eq!(last.join().unwrap(), Ok(()));
    });
    assert_eq!(pool.waiting(), 0);
}

/// What a hand keeps is busy, until it goes back with the hand's next clear, or by a flush.
#[test]
fn lists_of_kept_tags() {
    static ASLEEP: Asleep = Asleep::new();
    let options = Options {
        cache: 4,
        ..Options::new(8, 1)
    };
    for by_flush in [false, true] {
        let pool = Pool::open_with_sleeper(&options, &ASLEEP, |_| ()).unwrap();
        let hand = pool.join().unwrap();
        let other = hand.get_exactly(3).unwrap().unwrap();
        drop(hand.get_exactly(2).unwrap().unwrap());
        assert_eq!(pool.drain_list_timeout(&[2], Duration::from_millis(5)), Ok(false));
        thread::scope(|threads| {
            threads.spawn(|| pool.drain_list(&[2]).unwrap());
            ASLEEP.wait_for(1);
            if by_flush {
                hand.flush();
            }
            drop(other);
        });
    }
}

/// More threads than tags, so that each tag has a user again at once.
fn lists_beside_requests(cache: u32) {
    const TOTAL: usize = 8;
    let options = Options {
        cache,
        ..Options::new(TOTAL as u32, 12)
    };
    let pool = Pool::open(&options).unwrap();
    // The request that has the tag, from 1 on, or 0.
    let requests = [const { AtomicU64::new(0) }; TOTAL];
    let (begun, has_ended) = (AtomicU64::new(0), AtomicBool::new(false));
    let make_requests = || {
        let hand = pool.join().unwrap();
        while !has_ended.load(SeqCst) {
            let tag = hand.get_blocking().unwrap();
            let request = &requests[tag.number() as usize];
            request.store(1 + begun.fetch_add(1, SeqCst), SeqCst);
            (0..tag.number() % 4).for_each(|_| thread::yield_now());
            request.store(0, SeqCst);
        }
    };
    // None of the requests that are there now is when the wait has ended.
    let end_connections = || {
        for round in 0..40 {
            let now = requests.each_ref().map(|request| request.load(SeqCst));
            let numbers: Vec<_> = (0..TOTAL as u32).filter(|it| now[*it as usize] > 0).collect();
            match round % 2 {
                0 => pool.drain_list(&numbers).unwrap(),
                _ => assert_eq!(pool.drain_list_timeout(&numbers, LATE), Ok(true)),
            }
            for number in numbers {
                assert_ne!(requests[number as usize].load(SeqCst), now[number as usize]);
            }
        }
    };
    thread::scope(|threads| {
        (0..12).for_each(|_| drop(threads.spawn(make_requests)));
        let waits = [(); 3].map(|()| threads.spawn(end_connections));
        let ended = waits.map(|wait| wait.join());
        has_ended.store(true, SeqCst);
        assert!(ended.iter().all(Result::is_ok));
    });
    assert_eq!(pool.waiting(), 0);
}

#[test]
fn lists_beside_threads() {
    lists_beside_requests(0);
    lists_beside_requests(2);
}
