//! Refused allocations, one after another: what can be refused is refused with `NoMemory`, and nothing has changed.
//! Rust's own library ends the program where an `Arc` or a list of futures can't be made, so each is tried in a process
//! of its own. And which calls allocate: those that `lib.rs` lists, and no others.
use std::alloc::{GlobalAlloc, Layout, System};
use std::cell::Cell;
use std::env;
use std::future::Future;
use std::pin::Pin;
use std::process::{Command, Output};
use std::ptr::null_mut;
use std::sync::Arc;
use std::task::{Context, Wake, Waker};
use std::time::Duration;
use tags::{Error, Kind, Options, Pool};

thread_local! {
    /// How many allocations of this thread succeed until one is refused; below 0 none is. Other threads, as that of the
    /// test harness, allocate whenever they like.
    static LEFT: Cell<i64> = const { Cell::new(-1) };
}

struct Refuses;

// SAFETY: it is the system's, but for an allocation that is refused.
unsafe impl GlobalAlloc for Refuses {
    unsafe fn alloc(&self, layout: Layout) -> *mut u8 {
        if LEFT.replace(LEFT.get() - 1) == 0 {
            return null_mut();
        }
        // SAFETY: as the caller promises.
        unsafe { System.alloc(layout) }
    }

    unsafe fn dealloc(&self, pointer: *mut u8, layout: Layout) {
        // SAFETY: as the caller promises.
        unsafe { System.dealloc(pointer, layout) }
    }
}

#[global_allocator]
static ALLOCATOR: Refuses = Refuses;

/// Makes a call of which this allocation is refused, from 0.
fn refusing<R>(allocation: i64, call: impl FnOnce() -> R) -> R {
    LEFT.set(allocation);
    let answer = call();
    LEFT.set(-1);
    answer
}

/// How many allocations a call makes.
fn allocations<R>(call: impl FnOnce() -> R) -> i64 {
    LEFT.set(-1);
    let answer = call();
    let made = -1 - LEFT.get();
    drop(answer);
    made
}

fn options() -> Options {
    Options {
        reserved: 3,
        notes: true,
        queues: 1,
        ..Options::new(200, 4)
    }
}

fn open() -> Pool<u64> {
    Pool::open_with(&options(), u64::from).unwrap()
}

/// Each kind of call that asks for memory. It ends with whether it was refused.
fn carry_out(what: &str, allocation: i64) -> bool {
    match what {
        "open" => match refusing(allocation, || Pool::open_with(&options(), u64::from)) {
            Ok(pool) => pool.close().is_err(),
            Err(error) => error == Error::NoMemory,
        },
        "join" => {
            let pool = open();
            let joined = refusing(allocation, || pool.join());
            let is_refused = joined.as_ref().err() == Some(&Error::NoMemory);
            assert!(is_refused || joined.is_ok());
            drop(joined);
            let hands = [(); 4].map(|()| pool.join().unwrap());
            drop(hands);
            assert_eq!(pool.close().unwrap().got, 0);
            is_refused
        }
        "resize" => {
            let pool = open();
            let resized = refusing(allocation, || pool.resize_with(300, |number| u64::from(number) + 1000));
            let is_refused = resized == Err(Error::NoMemory);
            assert!(is_refused || resized == Ok(()));
            let (depth, value) = if is_refused { (197, 3) } else { (297, 1003) };
            assert_eq!(pool.show(Kind::Ordinary).depth, depth);
            let hand = pool.join_in_place().unwrap();
            assert_eq!(
                hand.get().unwrap().map(|tag| (tag.number(), *tag.value())),
                Some((3, value))
            );
            assert_eq!(hand.get_reserved().unwrap().map(|tag| *tag.value()), Some(0));
            is_refused
        }
        "share" => {
            let pool = open();
            let shared = refusing(allocation, || pool.share(2));
            let is_refused = shared.as_ref().err() == Some(&Error::NoMemory);
            assert!(is_refused || shared.is_ok());
            drop(shared);
            assert_eq!(pool.share(4).map(|hands| hands.count()).ok(), Some(4));
            is_refused
        }
        "submit" => {
            let pool = open();
            let hand = pool.join().unwrap();
            let tag = hand.get().unwrap().unwrap();
            let submitted = refusing(allocation, || tag.submit(0));
            let is_refused = submitted.is_err();
            if let Err(refused) = submitted {
                assert_eq!((refused.error, refused.tag.submit(0).ok()), (Error::NoMemory, Some(3)));
            }
            assert_eq!(hand.next(0).unwrap().map(|tag| tag.number()), Some(3));
            is_refused
        }
        "next" => {
            let pool = open();
            let hand = pool.join().unwrap();
            let next = refusing(allocation, || hand.next(0));
            let is_refused = next.as_ref().err() == Some(&Error::NoMemory);
            assert!(is_refused || next.is_ok_and(|tag| tag.is_none()));
            assert!(hand.next(0).unwrap().is_none());
            is_refused
        }
        "many" => {
            let pool = open();
            let hand = pool.join().unwrap();
            let many = refusing(allocation, || hand.get_many(5));
            let is_refused = many.as_ref().err() == Some(&Error::NoMemory);
            assert!(is_refused || many.as_ref().is_ok_and(|tags| tags.as_ref().unwrap().len() == 5));
            drop(many);
            drop(hand);
            assert_eq!(pool.close().unwrap().got, if is_refused { 0 } else { 5 });
            is_refused
        }
        "list" => {
            let pool = open();
            let drained = refusing(allocation, || pool.drain_list_timeout(&[199, 1], Duration::ZERO));
            let is_refused = drained == Err(Error::NoMemory);
            assert!(is_refused || drained == Ok(true));
            assert_eq!(pool.waiting(), 0);
            is_refused
        }
        _ => unreachable!("no such call"),
    }
}

/// What became of the process.
fn run(what: &str, allocation: i64) -> Output {
    let own = env::current_exe().unwrap();
    let mut command = Command::new(own);
    command.args(["--exact", "each_allocation_is_refused", "--nocapture"]);
    command.env("REFUSED", format!("{what} {allocation}")).output().unwrap()
}

#[test]
fn each_allocation_is_refused() {
    if let Ok(asked) = env::var("REFUSED") {
        let (what, allocation) = asked.split_once(' ').unwrap();
        let is_refused = carry_out(what, allocation.parse().unwrap());
        // With one test thread the line has begun with the name of the test.
        println!("\n{}", if is_refused { "refused" } else { "done" });
        return;
    }
    // How many allocations can't be refused: the `Arc`s of a pool and of its tags, of each queue's pool and of its tokens, of
    // each shared hand and of all.
    let calls = [
        ("open", 4),
        ("join", 0),
        ("resize", 3),
        ("share", 3),
        ("submit", 0),
        ("next", 0),
        ("many", 0),
        ("list", 0),
    ];
    for (what, arcs) in calls {
        let (mut ended, mut refused) = (0, 0);
        for allocation in 0.. {
            let output = run(what, allocation);
            let said = String::from_utf8_lossy(&output.stdout);
            if said.contains("\ndone\n") {
                break;
            }
            if said.contains("\nrefused\n") {
                assert!(output.status.success(), "{what}, allocation {allocation}");
                refused += 1;
            } else {
                let why = String::from_utf8_lossy(&output.stderr).into_owned();
                assert!(
                    why.contains("memory allocation of"),
                    "{what}, allocation {allocation}: {why}"
                );
                ended += 1;
            }
        }
        println!("{what}: {refused} refused, {ended} ended the program");
        assert!(ended == arcs && refused > 0, "{what}");
    }
}

struct Nobody;

impl Wake for Nobody {
    fn wake(self: Arc<Self>) {}
}

#[test]
fn these_calls_allocate() {
    let pool = open();
    let made = [
        allocations(|| Pool::open(&options())),
        allocations(|| pool.join()),
        allocations(|| pool.resize_with(300, u64::from)),
        allocations(|| pool.share(2)),
        allocations(|| pool.drain_list(&[1])),
    ];
    assert!(made.iter().all(|it| *it > 0), "{made:?}");
    let (hand, other, shared) = (pool.join().unwrap(), pool.join().unwrap(), pool.share(2).unwrap());
    let all = other.get_many(297).unwrap().unwrap();
    let (mut future, waker) = (hand.get_async(), Waker::from(Arc::new(Nobody)));
    let short = Duration::from_millis(1);
    let made = [
        allocations(|| Pin::new(&mut future).poll(&mut Context::from_waker(&waker)).is_ready()),
        allocations(|| shared.hand().get_timeout(short).unwrap()),
        allocations(|| shared.get_timeout(short).unwrap()),
        allocations(|| hand.next(0)),
    ];
    drop((all, future));
    assert!(made.iter().all(|it| *it > 0), "{made:?}");
    assert_eq!(
        (allocations(|| hand.get_many(2)), allocations(|| hand.into_shared())),
        (2, 1)
    );
}

#[test]
fn no_other_calls_allocate() {
    let pool = open();
    let (hand, other) = (pool.join().unwrap(), pool.join().unwrap());
    let shared = pool.share(2).unwrap();
    // The first use of the queue.
    hand.get().unwrap().unwrap().submit(0).unwrap();
    drop(other.next(0).unwrap());
    let short = Duration::from_millis(1);
    let made = allocations(|| {
        drop((
            hand.get(),
            hand.get_reserved(),
            hand.get_shallow(8),
            hand.get_exactly(9),
        ));
        drop((
            hand.get_blocking(),
            hand.get_timeout(short),
            shared.get(),
            shared.get_blocking(),
        ));
        let tag = hand.get().unwrap().unwrap();
        tag.note(1).unwrap();
        drop(hand.claim(tag.into_number()).unwrap());
        let batch = hand.get_batch(3).unwrap().unwrap();
        drop(other.take_batch(batch.post()).unwrap());
        hand.get_batch(3).unwrap().unwrap().into_tags().for_each(drop);
        drop(other.take(hand.get().unwrap().unwrap().post()).unwrap());
        hand.get().unwrap().unwrap().submit(0).unwrap();
        drop(other.next_blocking(0).unwrap());
        drop(shared.claim(shared.get().unwrap().unwrap().into_number()).unwrap());
        hand.flush();
        pool.drain();
        let _ = (
            hand.busy(&mut [0; 4]),
            hand.show(Kind::Ordinary),
            hand.waiting(),
            pool.queued(0),
        );
        assert!(
            pool.busy_tags()
                .chain(pool.noted_tags().unwrap().map(|it| it.0))
                .count()
                == 0
        );
        let reserved = [(); 3].map(|()| hand.get_reserved().unwrap());
        assert!(other.get_reserved_timeout(short).unwrap().is_none() && !pool.drain_timeout(short));
        drop(reserved);
        assert!(pool.join_timeout(short).unwrap().is_none() && hand.next_timeout(0, short).unwrap().is_none());
        pool.stop();
        pool.resume();
    });
    assert_eq!(made, 0);
    assert_eq!(allocations(|| drop((hand, other, shared))), 0);
}
