//! Many threads make every kind of call at random, beside reports and resizes. An array has the owner of each tag:
//! whoever gets a tag finds that it has none, and nobody else changes that while it has the tag.
use std::future::Future;
use std::pin::Pin;
use std::sync::atomic::{AtomicBool, AtomicU32, Ordering::SeqCst};
use std::sync::{Arc, Barrier, Mutex};
use std::task::{Context, Poll, Wake, Waker};
use std::thread;
use std::time::Duration;
use tags::{Batch, Error, Hand, Kind, Numbers, Options, Pool, SharedHand, Shift};

const MOST: usize = 96;
const THREADS: u32 = 5;
const ROUNDS: u32 = 25;
const CALLS: u32 = 800;

struct Random(u64);

impl Random {
    fn below(&mut self, bound: u64) -> u64 {
        self.0 ^= self.0 << 13;
        self.0 ^= self.0 >> 7;
        self.0 ^= self.0 << 17;
        self.0 % bound
    }
}

/// Who has which tag, and what was posted.
struct Owners {
    owners: [AtomicU32; MOST],
    posted: Mutex<Vec<Numbers>>,
}

impl Owners {
    fn new() -> Owners {
        Owners {
            owners: [const { AtomicU32::new(0) }; MOST],
            posted: Mutex::default(),
        }
    }

    fn enter(&self, tag: u32, me: u32) {
        assert_eq!(self.owners[tag as usize].swap(me, SeqCst), 0, "two have tag {tag}");
    }

    fn leave(&self, tag: u32, me: u32) {
        assert_eq!(self.owners[tag as usize].swap(0, SeqCst), me, "another has tag {tag}");
    }

    /// What was posted and nobody took yet.
    fn next_posted(&self) -> Option<Numbers> {
        self.posted.lock().unwrap().pop()
    }

    fn note_posted(&self, numbers: Numbers) {
        self.posted.lock().unwrap().push(numbers);
    }
}

/// Uses a tag, and then does with it what a number says. The tag is a guard of a hand of either kind.
macro_rules! use_tag {
    ($hand:expr, $tag:expr, $owners:expr, $me:expr, $random:expr) => {{
        let mut tag = $tag;
        let number = tag.number();
        $owners.enter(number, $me);
        assert_eq!((*tag.value(), $hand.holds(number)), (number, Ok(true)));
        tag.write(u64::from($me));
        *tag.value_mut() = number;
        if $random.below(8) == 0 {
            thread::yield_now();
        }
        assert_eq!(tag.read(), u64::from($me));
        assert_eq!($hand.claim(number).unwrap_err(), Error::NotHeld);
        $owners.leave(number, $me);
        match $random.below(4) {
            0 => {
                let number = tag.post();
                $owners.note_posted(Numbers::new(number, 1));
            }
            1 => drop($hand.claim(tag.into_number()).unwrap()),
            _ => drop(tag),
        }
    }};
}

struct Nobody;

impl Wake for Nobody {
    fn wake(self: Arc<Self>) {}
}

/// Polls once or twice, and drops the future.
fn poll<T>(mut future: impl Future<Output = tags::Result<T>> + Unpin, polls: u64) -> Option<T> {
    let waker = Waker::from(Arc::new(Nobody));
    for _ in 0..polls {
        if let Poll::Ready(tag) = Pin::new(&mut future).poll(&mut Context::from_waker(&waker)) {
            return Some(tag.unwrap());
        }
        thread::yield_now();
    }
    None
}

fn use_batch(batch: Batch<'_, u32>, owners: &Owners, me: u32, random: &mut Random) {
    let numbers: Vec<u32> = batch.numbers().collect();
    for number in &numbers {
        owners.enter(*number, me);
        batch.write(*number, u64::from(me)).unwrap();
    }
    for number in &numbers {
        assert_eq!(
            (batch.read(*number), batch.value(*number)),
            (Some(u64::from(me)), Some(number))
        );
        owners.leave(*number, me);
    }
    match random.below(4) {
        0 => owners.note_posted(batch.post()),
        1 => batch.into_tags().for_each(drop),
        2 => {
            let mut batch = batch;
            drop(batch.pop());
        }
        _ => drop(batch),
    }
}

/// A thread with a hand of its own.
fn call(hand: &Hand<u32>, owners: &Owners, me: u32, random: &mut Random) {
    let short = Duration::from_micros(random.below(100));
    let found = match random.below(13) {
        0 | 1 => hand.get().unwrap(),
        2 => hand.get_timeout(short).unwrap(),
        3 => hand.get_shallow(1 + random.below(MOST as u64) as u32).unwrap(),
        4 => hand.get_reserved().unwrap(),
        5 => poll(hand.get_async(), 1 + random.below(2)),
        6 => return hand.flush(),
        7 => {
            let batch = hand.get_batch(1 + random.below(8) as u32).unwrap();
            return batch.into_iter().for_each(|it| use_batch(it, owners, me, random));
        }
        8 => match owners.next_posted() {
            // Reserved tags are taken one by one.
            Some(numbers) if numbers.mask() == 1 => Some(hand.take(numbers.first()).unwrap()),
            Some(numbers) => {
                let batch = hand.take_batch(numbers).unwrap();
                return use_batch(batch, owners, me, random);
            }
            None => return,
        },
        9 => {
            assert_eq!(hand.take_batch(Numbers::default()).unwrap_err(), Error::BadCount);
            return assert!(hand.show(Kind::Ordinary).depth > 0);
        }
        10 => hand.get_reserved_timeout(short).unwrap(),
        _ => {
            // Not while all tags may be posted.
            hand.get_timeout(Duration::from_millis(1)).unwrap()
        }
    };
    if let Some(tag) = found {
        use_tag!(hand, tag, owners, me, random);
    }
}

/// One of several threads with the same hand.
fn call_together(hand: &SharedHand<u32>, owners: &Owners, me: u32, random: &mut Random) {
    let found = match random.below(8) {
        0 | 1 => hand.get().unwrap(),
        2 => hand.get_timeout(Duration::from_micros(random.below(100))).unwrap(),
        3 => hand.get_reserved().unwrap(),
        4 => poll(hand.get_async(), 1 + random.below(3)),
        5 => hand
            .get_reserved_timeout(Duration::from_micros(random.below(100)))
            .unwrap(),
        6 => poll(hand.get_reserved_async(), 1 + random.below(3)),
        _ => return hand.flush(),
    };
    if let Some(tag) = found {
        use_tag!(hand, tag, owners, me, random);
    }
}

/// Takes what is still posted, and gives it back.
fn clean_up(pool: &Pool<u32>, owners: &Owners) {
    let hand = pool.join_blocking().unwrap();
    while let Some(numbers) = owners.next_posted() {
        for number in numbers.iter() {
            drop(hand.take(number).unwrap());
        }
    }
}

fn run(options: Options) {
    let options = Options { hands: 5, ..options };
    let pool = Pool::open_with(&options, |number| number).unwrap();
    let (owners, resized, is_over) = (Owners::new(), AtomicU32::new(0), AtomicBool::new(false));
    let barrier = Barrier::new(THREADS as usize);
    let work = |me: u32| {
        let mut random = Random(u64::from(me).wrapping_mul(0x9e37_79b9_7f4a_7c15));
        for round in 0..ROUNDS {
            let hand = pool.join_blocking().unwrap();
            if (me + round) % 3 == 0 {
                let hand = hand.into_shared();
                thread::scope(|threads| {
                    let (other, owners) = (hand.clone(), &owners);
                    let mut random = Random(u64::from(me * 100 + round + 1));
                    threads.spawn(move || {
                        (0..CALLS).for_each(|_| call_together(&other, owners, me + 100, &mut random));
                    });
                    (0..CALLS).for_each(|_| call_together(&hand, owners, me, &mut random_of(me, round)));
                });
            } else {
                (0..CALLS).for_each(|_| call(&hand, &owners, me, &mut random));
                drop(hand);
            }
            // Now and then all hands and all tags are back, until a resize has found them so.
            if barrier.wait().is_leader() {
                clean_up(&pool, &owners);
                let before = resized.load(SeqCst);
                while resized.load(SeqCst) == before {
                    thread::yield_now();
                }
            }
            barrier.wait();
        }
    };
    thread::scope(|threads| {
        let workers: Vec<_> = (1..=THREADS).map(|me| threads.spawn(move || work(me))).collect();
        threads.spawn(|| {
            while !is_over.load(SeqCst) {
                let (sizes, busy) = (pool.show(Kind::Ordinary), pool.busy_tags().count());
                assert!(sizes.busy <= sizes.depth && busy <= MOST && pool.waiting() < 64);
                thread::yield_now();
            }
        });
        let mut total = options.total;
        while !workers.iter().all(|it| it.is_finished()) {
            total = if total == options.total {
                MOST as u32
            } else {
                options.total
            };
            match pool.resize_with(total, |number| number) {
                Ok(()) => {
                    resized.fetch_add(1, SeqCst);
                }
                Err(error) => assert!(matches!(error, Error::HandsOut | Error::InUse)),
            }
            thread::yield_now();
        }
        is_over.store(true, SeqCst);
    });
    clean_up(&pool, &owners);
    pool.resize_with(options.total, |number| number).unwrap();
    let totals = pool.close().unwrap();
    assert_eq!((totals.got, totals.held, totals.posted), (totals.back, 0, 0));
    let resized = resized.into_inner();
    println!("{} tags taken, {resized} resizes beside", totals.got);
    assert!(totals.got > 1000 && resized >= ROUNDS);
}

fn random_of(me: u32, round: u32) -> Random {
    Random(u64::from(me) << 32 | u64::from(round + 1))
}

#[test]
fn a_few_tags() {
    run(Options {
        reserved: 1,
        ..Options::new(5, 0)
    });
}

#[test]
fn words_of_one_tag() {
    run(Options {
        shift: Shift::Of(0),
        reserved: 2,
        ..Options::new(9, 0)
    });
}

#[test]
fn round_robin() {
    run(Options {
        round_robin: true,
        reserved: 1,
        shift: Shift::Of(2),
        ..Options::new(14, 0)
    });
}

#[test]
fn hands_that_keep_tags() {
    run(Options {
        cache: 4,
        reserved: 1,
        ..Options::new(20, 0)
    });
}

#[test]
fn hands_that_keep_tags_while_they_hold_one() {
    run(Options {
        cache: 2,
        keep_while_holding: true,
        reserved: 1,
        ..Options::new(8, 0)
    });
}
